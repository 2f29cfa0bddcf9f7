# Completion of ldbtool's command line for bash. It needs nothing but bash itself.

# What a verb takes, an option a word; an option that takes a value ends with '='.
_ldbtool_options() {
    local sizes="--write-buffer= --block-bytes= --file-bytes= --level0-files= --base-bytes= --cache-blocks="
    case $1 in
        get) echo "--text --raw --order= --help" ;;
        scan) echo "--from= --to= --prefix= --limit= --reverse --count --values --text --json --order= --help" ;;
        export) echo "--from= --to= --prefix= --order= --help" ;;
        check) echo "--keep-going --order= --help" ;;
        stats) echo "--json --order= --help" ;;
        dump) echo "--text --json --keep-going --order= --help" ;;
        run) echo "--work= --strict --mend $sizes --order= --help" ;;
        import) echo "--batch= --sync --create --mend $sizes --order= --help" ;;
        compact) echo "--level= --mend $sizes --order= --help" ;;
        mend) echo "--dry-run --holes --order= --help" ;;
        put | del) echo "--text --order= --help" ;;
    esac
}

# The values of an option that has few.
_ldbtool_values() {
    case $1 in
        --order) echo "bytes reverse" ;;
        --work) echo "auto" ;;
        --level) echo "0 1 2 3 4 5" ;;
    esac
}

# Sets `words`, in which an option and its value are two words, also if they are joined by '=' (bash
# may cut them there, and then the '=' is a word too), and `last`, the word to be completed.
_ldbtool_words() {
    local word
    words=()
    for word in "${COMP_WORDS[@]:1:COMP_CWORD}"; do
        case $word in
            =) words[${#words[@]}]= ;;
            --*=*) words+=("${word%%=*}" "${word#*=}") ;;
            *)
                if [[ ${#words[@]} -gt 0 && -z ${words[-1]} ]]; then words[-1]=$word; else words+=("$word"); fi
                ;;
        esac
    done
    last=${words[-1]}
    unset 'words[-1]'
}

# Offers those of these words that begin as the last one does. An option with a value is joined to
# it by a space.
_ldbtool_offer() {
    mapfile -t COMPREPLY < <(compgen -W "$1" -- "$last")
}

_ldbtool_folders() {
    compopt -o filenames 2> /dev/null
    mapfile -t COMPREPLY < <(compgen -d -- "$last")
}

# Offers after a verb: the value of an option, an option that isn't there yet, or DIR if that isn't.
_ldbtool_rest() {
    local verb=$1 word value= folder= ended= left
    shift
    left=" $(_ldbtool_options "$verb") "
    for word in "$@"; do
        if [[ $value ]]; then
            value=
        elif [[ ! $ended && $word == -- ]]; then
            ended=yes
        elif [[ ! $ended && $word == --* ]]; then
            [[ $left == *" $word= "* ]] && value=$word
            left=${left/ $word= / }
            left=${left/ $word / }
        elif [[ $ended || $word != -* ]]; then
            folder=$word
        fi
    done
    if [[ $value ]]; then
        _ldbtool_offer "$(_ldbtool_values "$value")"
    elif [[ ! $ended && $last == -* ]]; then
        _ldbtool_offer "${left//=/}"
    elif [[ ! $folder ]]; then
        _ldbtool_folders
    fi
}

_ldbtool() {
    local words last verbs="get scan export stats check dump run import compact put del mend"
    COMPREPLY=()
    _ldbtool_words
    case ${words[0]-} in
        "") if [[ $last == -* ]]; then _ldbtool_offer "--help --version"; else _ldbtool_offer "$verbs help"; fi ;;
        help) [[ ${#words[@]} -gt 1 ]] || _ldbtool_offer "$verbs" ;;
        *) [[ " $verbs " != *" ${words[0]} "* ]] || _ldbtool_rest "${words[@]}" ;;
    esac
}

complete -F _ldbtool ldbtool
