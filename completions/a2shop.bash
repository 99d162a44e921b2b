# The completion of a2shop for bash.
_a2shop() {
  local word=${COMP_WORDS[COMP_CWORD]} before=${COMP_WORDS[COMP_CWORD-1]}
  COMPREPLY=()
  if [ "$COMP_CWORD" -eq 1 ]; then
    mapfile -t COMPREPLY < <(compgen -W "identify survey catalog list map check compare read extract save add mkdir lock unlock rename delete reclaim create convert wrap unwrap plan optimize verify help --auto --explain --help --version" -- "$word")
    return
  fi
  case "${COMP_WORDS[1]} $before" in
    'survey --format') mapfile -t COMPREPLY < <(compgen -W "lines json" -- "$word"); return ;;
    'catalog --fs') mapfile -t COMPREPLY < <(compgen -W "auto dos prodos" -- "$word"); return ;;
    'catalog --order') mapfile -t COMPREPLY < <(compgen -W "auto 2img dos prodos nibble" -- "$word"); return ;;
    'list --fs') mapfile -t COMPREPLY < <(compgen -W "auto dos prodos" -- "$word"); return ;;
    'list --order') mapfile -t COMPREPLY < <(compgen -W "auto 2img dos prodos nibble" -- "$word"); return ;;
    'list --format') mapfile -t COMPREPLY < <(compgen -W "names json csv" -- "$word"); return ;;
    'list --most') return ;;
    'map --fs') mapfile -t COMPREPLY < <(compgen -W "auto dos prodos" -- "$word"); return ;;
    'map --order') mapfile -t COMPREPLY < <(compgen -W "auto 2img dos prodos nibble" -- "$word"); return ;;
    'map --reserve') return ;;
    'check --fs') mapfile -t COMPREPLY < <(compgen -W "auto dos prodos" -- "$word"); return ;;
    'check --order') mapfile -t COMPREPLY < <(compgen -W "auto 2img dos prodos nibble" -- "$word"); return ;;
    'check --reserve') return ;;
    'compare --fs') mapfile -t COMPREPLY < <(compgen -W "auto dos prodos" -- "$word"); return ;;
    'compare --order') mapfile -t COMPREPLY < <(compgen -W "auto 2img dos prodos nibble" -- "$word"); return ;;
    'compare --other-order') mapfile -t COMPREPLY < <(compgen -W "auto 2img dos prodos nibble" -- "$word"); return ;;
    'compare --most') return ;;
    'read --fs') mapfile -t COMPREPLY < <(compgen -W "auto dos prodos" -- "$word"); return ;;
    'read --order') mapfile -t COMPREPLY < <(compgen -W "auto 2img dos prodos nibble" -- "$word"); return ;;
    'read --as') mapfile -t COMPREPLY < <(compgen -W "text applesoft integer single shown" -- "$word"); return ;;
    'read --out') mapfile -t COMPREPLY < <(compgen -f -- "$word"); return ;;
    'extract --fs') mapfile -t COMPREPLY < <(compgen -W "auto dos prodos" -- "$word"); return ;;
    'extract --order') mapfile -t COMPREPLY < <(compgen -W "auto 2img dos prodos nibble" -- "$word"); return ;;
    'extract --into') mapfile -t COMPREPLY < <(compgen -f -- "$word"); return ;;
    'extract --names') mapfile -t COMPREPLY < <(compgen -W "naps plain" -- "$word"); return ;;
    'extract --most') return ;;
    'save --fs') mapfile -t COMPREPLY < <(compgen -W "auto dos prodos" -- "$word"); return ;;
    'save --order') mapfile -t COMPREPLY < <(compgen -W "auto 2img dos prodos nibble" -- "$word"); return ;;
    'save --from') mapfile -t COMPREPLY < <(compgen -f -- "$word"); return ;;
    'save --as') mapfile -t COMPREPLY < <(compgen -W "text applesoft single" -- "$word"); return ;;
    'save --high') mapfile -t COMPREPLY < <(compgen -W "on off" -- "$word"); return ;;
    'save --out') mapfile -t COMPREPLY < <(compgen -f -- "$word"); return ;;
    'save --type') return ;;
    'save --aux') return ;;
    'save --date') return ;;
    'save --reserve') return ;;
    'add --fs') mapfile -t COMPREPLY < <(compgen -W "auto dos prodos" -- "$word"); return ;;
    'add --order') mapfile -t COMPREPLY < <(compgen -W "auto 2img dos prodos nibble" -- "$word"); return ;;
    'add --from') mapfile -t COMPREPLY < <(compgen -f -- "$word"); return ;;
    'add --out') mapfile -t COMPREPLY < <(compgen -f -- "$word"); return ;;
    'add --into') return ;;
    'add --date') return ;;
    'add --reserve') return ;;
    'mkdir --fs') mapfile -t COMPREPLY < <(compgen -W "auto prodos" -- "$word"); return ;;
    'mkdir --order') mapfile -t COMPREPLY < <(compgen -W "auto 2img dos prodos nibble" -- "$word"); return ;;
    'mkdir --out') mapfile -t COMPREPLY < <(compgen -f -- "$word"); return ;;
    'mkdir --date') return ;;
    'mkdir --reserve') return ;;
    'lock --fs') mapfile -t COMPREPLY < <(compgen -W "auto dos prodos" -- "$word"); return ;;
    'lock --order') mapfile -t COMPREPLY < <(compgen -W "auto 2img dos prodos nibble" -- "$word"); return ;;
    'lock --out') mapfile -t COMPREPLY < <(compgen -f -- "$word"); return ;;
    'lock --reserve') return ;;
    'unlock --fs') mapfile -t COMPREPLY < <(compgen -W "auto dos prodos" -- "$word"); return ;;
    'unlock --order') mapfile -t COMPREPLY < <(compgen -W "auto 2img dos prodos nibble" -- "$word"); return ;;
    'unlock --out') mapfile -t COMPREPLY < <(compgen -f -- "$word"); return ;;
    'unlock --reserve') return ;;
    'rename --fs') mapfile -t COMPREPLY < <(compgen -W "auto dos prodos" -- "$word"); return ;;
    'rename --order') mapfile -t COMPREPLY < <(compgen -W "auto 2img dos prodos nibble" -- "$word"); return ;;
    'rename --out') mapfile -t COMPREPLY < <(compgen -f -- "$word"); return ;;
    'rename --reserve') return ;;
    'delete --fs') mapfile -t COMPREPLY < <(compgen -W "auto dos prodos" -- "$word"); return ;;
    'delete --order') mapfile -t COMPREPLY < <(compgen -W "auto 2img dos prodos nibble" -- "$word"); return ;;
    'delete --out') mapfile -t COMPREPLY < <(compgen -f -- "$word"); return ;;
    'delete --reserve') return ;;
    'reclaim --fs') mapfile -t COMPREPLY < <(compgen -W "auto dos prodos" -- "$word"); return ;;
    'reclaim --order') mapfile -t COMPREPLY < <(compgen -W "auto 2img dos prodos nibble" -- "$word"); return ;;
    'reclaim --out') mapfile -t COMPREPLY < <(compgen -f -- "$word"); return ;;
    'reclaim --reserve') return ;;
    'create --fs') mapfile -t COMPREPLY < <(compgen -W "dos prodos" -- "$word"); return ;;
    'create --order') mapfile -t COMPREPLY < <(compgen -W "dos prodos nibble" -- "$word"); return ;;
    'create --out') mapfile -t COMPREPLY < <(compgen -f -- "$word"); return ;;
    'create --blocks') return ;;
    'create --name') return ;;
    'create --date') return ;;
    'create --volume') return ;;
    'create --boot') mapfile -t COMPREPLY < <(compgen -f -- "$word"); return ;;
    'convert --order') mapfile -t COMPREPLY < <(compgen -W "auto 2img dos prodos nibble" -- "$word"); return ;;
    'convert --to') mapfile -t COMPREPLY < <(compgen -W "dos prodos nibble" -- "$word"); return ;;
    'convert --out') mapfile -t COMPREPLY < <(compgen -f -- "$word"); return ;;
    'convert --volume') return ;;
    'wrap --order') mapfile -t COMPREPLY < <(compgen -W "auto dos prodos nibble" -- "$word"); return ;;
    'wrap --out') mapfile -t COMPREPLY < <(compgen -f -- "$word"); return ;;
    'wrap --comment') return ;;
    'wrap --volume') return ;;
    'unwrap --out') mapfile -t COMPREPLY < <(compgen -f -- "$word"); return ;;
    'plan --fs') mapfile -t COMPREPLY < <(compgen -W "auto dos prodos" -- "$word"); return ;;
    'plan --order') mapfile -t COMPREPLY < <(compgen -W "auto 2img dos prodos nibble" -- "$word"); return ;;
    'plan --reserve') return ;;
    'optimize --fs') mapfile -t COMPREPLY < <(compgen -W "auto dos prodos" -- "$word"); return ;;
    'optimize --order') mapfile -t COMPREPLY < <(compgen -W "auto 2img dos prodos nibble" -- "$word"); return ;;
    'optimize --out') mapfile -t COMPREPLY < <(compgen -f -- "$word"); return ;;
    'optimize --reserve') return ;;
    'optimize --stop-after') return ;;
    'optimize --cert') mapfile -t COMPREPLY < <(compgen -f -- "$word"); return ;;
    'verify --fs') mapfile -t COMPREPLY < <(compgen -W "auto dos prodos" -- "$word"); return ;;
    'verify --order') mapfile -t COMPREPLY < <(compgen -W "auto 2img dos prodos nibble" -- "$word"); return ;;
    'verify --from') mapfile -t COMPREPLY < <(compgen -f -- "$word"); return ;;
    'verify --reserve') return ;;
  esac
  if [[ $word != -* ]]; then
    mapfile -t COMPREPLY < <(compgen -f -- "$word")
    return
  fi
  case "${COMP_WORDS[1]}" in
    identify) mapfile -t COMPREPLY < <(compgen -W "--explain --help" -- "$word") ;;
    survey) mapfile -t COMPREPLY < <(compgen -W "--format --explain --help" -- "$word") ;;
    catalog) mapfile -t COMPREPLY < <(compgen -W "--fs --order --data-disk --auto --explain --help" -- "$word") ;;
    list) mapfile -t COMPREPLY < <(compgen -W "--fs --order --format --digests --places --most --data-disk --auto --explain --help" -- "$word") ;;
    map) mapfile -t COMPREPLY < <(compgen -W "--fs --order --data-disk --reserve --auto --explain --help" -- "$word") ;;
    check) mapfile -t COMPREPLY < <(compgen -W "--fs --order --bodies --data-disk --reserve --auto --explain --help" -- "$word") ;;
    compare) mapfile -t COMPREPLY < <(compgen -W "--fs --order --other-order --all --most --data-disk --auto --explain --help" -- "$word") ;;
    read) mapfile -t COMPREPLY < <(compgen -W "--fs --order --whole --as --out --data-disk --stored --auto --explain --help" -- "$word") ;;
    extract) mapfile -t COMPREPLY < <(compgen -W "--fs --order --into --names --texts --most --data-disk --auto --explain --help" -- "$word") ;;
    save) mapfile -t COMPREPLY < <(compgen -W "--fs --order --from --as --high --out --in-place --type --aux --date --data-disk --reserve --replace --auto --explain --help" -- "$word") ;;
    add) mapfile -t COMPREPLY < <(compgen -W "--fs --order --from --out --into --date --data-disk --reserve --auto --explain --help" -- "$word") ;;
    mkdir) mapfile -t COMPREPLY < <(compgen -W "--fs --order --out --in-place --date --reserve --auto --explain --help" -- "$word") ;;
    lock) mapfile -t COMPREPLY < <(compgen -W "--fs --order --out --in-place --data-disk --reserve --stored --auto --explain --help" -- "$word") ;;
    unlock) mapfile -t COMPREPLY < <(compgen -W "--fs --order --out --in-place --data-disk --reserve --stored --auto --explain --help" -- "$word") ;;
    rename) mapfile -t COMPREPLY < <(compgen -W "--fs --order --out --in-place --data-disk --reserve --stored --auto --explain --help" -- "$word") ;;
    delete) mapfile -t COMPREPLY < <(compgen -W "--fs --order --out --in-place --data-disk --reserve --stored --auto --explain --help" -- "$word") ;;
    reclaim) mapfile -t COMPREPLY < <(compgen -W "--fs --order --out --in-place --data-disk --reserve --auto --explain --help" -- "$word") ;;
    create) mapfile -t COMPREPLY < <(compgen -W "--fs --order --out --blocks --name --date --volume --data-disk --boot --explain --help" -- "$word") ;;
    convert) mapfile -t COMPREPLY < <(compgen -W "--order --to --out --volume --data-disk --auto --explain --help" -- "$word") ;;
    wrap) mapfile -t COMPREPLY < <(compgen -W "--order --out --comment --volume --protect --auto --explain --help" -- "$word") ;;
    unwrap) mapfile -t COMPREPLY < <(compgen -W "--out --explain --help" -- "$word") ;;
    plan) mapfile -t COMPREPLY < <(compgen -W "--fs --order --data-disk --reserve --reclaim --words --auto --explain --help" -- "$word") ;;
    optimize) mapfile -t COMPREPLY < <(compgen -W "--fs --order --out --in-place --data-disk --reserve --reclaim --stop-after --cert --auto --explain --help" -- "$word") ;;
    verify) mapfile -t COMPREPLY < <(compgen -W "--fs --order --from --data-disk --reserve --reclaim --auto --explain --help" -- "$word") ;;
  esac
}
complete -o filenames -F _a2shop a2shop
