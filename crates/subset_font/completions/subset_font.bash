# Completion of subset_font for bash: from src/help.rt, by completions/generate. Don't edit it.
_subset_font() {
    local word=${COMP_WORDS[COMP_CWORD]}
    COMPREPLY=()
    case ${COMP_WORDS[COMP_CWORD - 1]} in
    --gids-file | --text-file | --unicodes-file | -o | --output-file | --pdf | --batch)
        mapfile -t COMPREPLY < <(compgen -f -- "$word")
        return
        ;;
    --gids | --text | --unicodes | --face-index | --most-input | --codes | --rights | --at | --limits)
        return
        ;;
    esac
    case $word in
    -*) mapfile -t COMPREPLY < <(compgen -W "--gids --gids-file --text --text-file --unicodes --unicodes-file --strict -o --output-file --face-index --most-input --pdf --vertical --codes --rights --allow-blank --at --no-hinting --no-names --no-glyph-names --small --limits --widths --verbose --json --quiet --axes --info --batch -h --help --version" -- "$word") ;;
    *) mapfile -t COMPREPLY < <(compgen -f -- "$word") ;;
    esac
}
complete -o filenames -F _subset_font subset_font
