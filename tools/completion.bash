# Completion of the words of deltagraph and its tools in bash: `source tools/completion.bash`.
# shellcheck shell=bash disable=SC2207

# Offers words that begin as the current one does, or files where there are none to offer.
_deltagraph_offer() {
    local current=$1
    shift
    if [ $# -gt 0 ]; then
        COMPREPLY=($(compgen -W "$*" -- "$current"))
    else
        compopt -o filenames 2> /dev/null
        COMPREPLY=($(IFS=$'\n'; compgen -f -- "$current"))
    fi
}

# What may follow an option of any of the tools; without an answer, it is a file or a text.
_deltagraph_values() {
    case $1 in
        --as) echo mixed directed undirected ;;
        --at-equal-times) echo before after ;;
        --columns) [ "$2" = edges2script ] || echo s sn se sne st snt set snet ;;
        --encoding) echo utf-8 utf-16 latin-1 cp1252 bytes ;;
        --every) echo hour day week month quarter year ;;
        --form) echo table snap konect network-repository sociopatterns jsonl graphml gexf ;;
        --format)
            case $2 in
                timeline) echo html gexf ;;
                spells) echo csv parquet gexf ;;
                *) echo graphml gexf dot edges nodes ;;
            esac
            ;;
        --from | --to | --at) echo first last ;;
        --ids) echo number name ;;
        --repeat) echo new ignore count ;;
        --separator) echo comma tab semicolon space ;;
        --start-at) echo first last ;;
        --times) echo number iso ;;
    esac
}

_deltagraph_options() {
    case $1 in
        deltagraph) echo --cache --checked ;;
        edges2script)
            echo --help --form --columns --header --source --target --time --end --weight --values --separator \
                --no-quotes --join-lines --comments --encoding --nodes --node-columns --node-header --times --scale \
                --shift --closed --contact --spread --no-clock --messages --repeat --directed --undirected --keep-ids \
                --name --skip-untimed --after --create --batch --progress
            ;;
        spells)
            echo --help --key --label --ids --dates --instants --verify --format --output --program --progress
            ;;
        rebuild) echo --help --at-equal-times --skip-refused --keep --dump --program ;;
        snapshot) echo --help --format --columns --label --numbers --as --ids --output --program --progress ;;
        growth)
            echo --help --from --to --points --every --at --columns --text --svg --log --title --dates --shift --program \
                --progress
            ;;
        timeline)
            echo --help --from --to --points --at --messages --format --start-at --most --label --colour --title --dates --output \
                --program --progress
            ;;
    esac
}

_deltagraph() {
    local tool=${1##*/} current=$2 previous=$3
    local values
    values=$(_deltagraph_values "$previous" "$tool")
    if [ -n "$values" ]; then
        _deltagraph_offer "$current" "$values"
    elif [[ $current == -* ]]; then
        _deltagraph_offer "$current" "$(_deltagraph_options "$tool")"
    elif [ "$tool" = snapshot ] && [ "$COMP_CWORD" -eq 2 ]; then
        _deltagraph_offer "$current" first last
    elif [ "$tool" = spells ] && [ "$COMP_CWORD" -eq 2 ]; then
        _deltagraph_offer "$current" edges nodes edge-values node-values messages changes
    else
        _deltagraph_offer "$current"
    fi
}

complete -F _deltagraph deltagraph edges2script snapshot growth spells timeline rebuild
