# shellcheck shell=bash
# Sourced by the scripts here, with `usage` (the script's one line): wrong words and missing tools end with status 2.
wrong() {
    echo "${0##*/}: $*" >&2
    echo "usage: $usage" >&2
    exit 2
}

needed() { # TOOL...
    local tool
    for tool in "$@"; do
        if ! command -v "$tool" >/dev/null; then
            echo "${0##*/}: $tool is not there" >&2
            exit 2
        fi
    done
}

needed_esri() {
    if ! echo 'int main(void) { return 0; }' | cc -x c - -lLerc -o /dev/null 2>/dev/null; then
        echo "${0##*/}: Esri's library is not there (Debian: liblerc-dev)" >&2
        exit 2
    fi
}

# Cargo's words for Esri's library as `features`, where ESRI=1 asks for it.
# shellcheck disable=SC2034
read_esri() {
    features=()
    case ${ESRI:-0} in
    0) ;;
    1)
        features=(--features esri)
        needed_esri
        ;;
    *) wrong "ESRI=$ESRI: 1 or nothing" ;;
    esac
}

# Two archives, the first two words, as `names` and `archives`, the folders with whole paths.
read_archives() { # NAME=FOLDER NAME=FOLDER ...
    local word
    names=() archives=()
    for word in "${@:1:2}"; do
        case $word in *=*) ;; *) wrong "$word: NAME=FOLDER, twice" ;; esac
        case ${word%%=*} in '' | *[!A-Za-z0-9_-]*) wrong "$word: a name has letters, digits, - and _" ;; esac
        [ -f "${word#*=}/liblerc_c.a" ] || wrong "${word#*=}: there is no liblerc_c.a"
        names+=("${word%%=*}") archives+=("$(cd "${word#*=}" && pwd)")
    done
    [ ${#names[@]} -eq 2 ] || wrong "NAME=FOLDER, twice"
    [ "${names[0]}" != "${names[1]}" ] || wrong "two names, and not ${names[0]} twice"
}

# The words of whole.sh, two.sh and arm64.sh as those of the program in bench/whole, with whole paths.
read_words() {
    local folder=''
    words=()
    while [ $# -gt 0 ]; do
        case $1 in
        -h | --help)
            echo "usage: $usage"
            exit 0
            ;;
        --only | --rounds | --plot)
            [ $# -ge 2 ] || wrong "$1 needs a value"
            case $1 in
            --rounds)
                case $2 in '' | *[!0-9]*) wrong "--rounds $2: not a number" ;; esac
                words+=("$1" "$2")
                ;;
            --plot)
                if [ ! -d "$(dirname "$2")" ] || [ -d "$2" ]; then wrong "--plot $2: no file can be written there"; fi
                words+=("$1" "$(cd "$(dirname "$2")" && pwd)/$(basename "$2")")
                ;;
            *) words+=("$1" "$2") ;;
            esac
            shift 2
            ;;
        --floats | --no-counts | --no-times)
            words+=("$1")
            shift
            ;;
        -*) wrong "unknown word $1" ;;
        *)
            [ -d "$1" ] || wrong "$1 is no folder"
            [ -z "$folder" ] || wrong "one folder, and not $1 too"
            folder=$(cd "$1" && pwd)
            words+=(--folder "$folder")
            shift
            ;;
        esac
    done
}
