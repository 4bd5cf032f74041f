# Completion of tep in bash. Made by share/make.py of what the program's help says.
# shellcheck shell=bash

# _tep_offers KIND [WORDS]: completes the word at hand as a file, a folder, or one of these words
_tep_offers() {
    case $1 in
        files)
            compopt -o filenames 2>/dev/null
            mapfile -t COMPREPLY < <(compgen -f -- "$cur")
            ;;
        folders)
            compopt -o filenames 2>/dev/null
            mapfile -t COMPREPLY < <(compgen -d -- "$cur")
            ;;
        *)
            compopt +o default 2>/dev/null
            mapfile -t COMPREPLY < <(compgen -W "${2-}" -- "$cur")
            ;;
    esac
}

_tep() {
    local cur=${COMP_WORDS[COMP_CWORD]} before=${COMP_WORDS[COMP_CWORD - 1]}
    # --out=here comes as three words.
    if [ "$cur" = "=" ]; then
        cur=""
    elif [ "$before" = "=" ] && [ "$COMP_CWORD" -gt 2 ]; then
        before=${COMP_WORDS[COMP_CWORD - 2]}
    fi
    COMPREPLY=()
    if [ "$COMP_CWORD" -eq 1 ]; then
        _tep_offers words "run check explain migrate digest merge split compare report fabric help --help --version"
        return
    fi
    case ${COMP_WORDS[1]} in
        run)
            case $before,$cur in
                -s,* | --settings,* | -c,* | --changes,* | -u,* | --underlay,* | --list,* | --pcapng,* | --digests,*) _tep_offers files ;;
                -o,* | --out,*) _tep_offers folders ;;
                --within,* | --tables-at,* | --why,* | --segments,*) _tep_offers words "" ;;
                *,-*) _tep_offers words "--settings --changes --underlay --out --both --within --list --tables --tables-at --why --summary --talkers --json --pcapng --segments --digests --quiet --help --version" ;;
                *) _tep_offers files ;;
            esac
            ;;
        check)
            case $before,$cur in
                -s,* | --settings,* | -c,* | --changes,* | -u,* | --underlay,*) _tep_offers files ;;
                *,-*) _tep_offers words "--settings --changes --underlay --json --help --version" ;;
                *) _tep_offers files ;;
            esac
            ;;
        explain)
            case $before,$cur in
                -s,* | --settings,*) _tep_offers files ;;
                -d,* | --depth,*) _tep_offers words "1 2 3 4" ;;
                *,-*) _tep_offers words "--settings --depth --values --json --help --version" ;;
                *) _tep_offers files ;;
            esac
            ;;
        migrate)
            case $before,$cur in
                -s,* | --settings,*) _tep_offers files ;;
                *,-*) _tep_offers words "--settings --help --version" ;;
                *) _tep_offers words "" ;;
            esac
            ;;
        digest)
            case $before,$cur in
                -u,* | --underlay,*) _tep_offers files ;;
                *,-*) _tep_offers words "--underlay --help --version" ;;
                *) _tep_offers files ;;
            esac
            ;;
        merge)
            case $before,$cur in
                -o,* | --out,*) _tep_offers folders ;;
                *,-*) _tep_offers words "--out --tables --summary --json --help --version" ;;
                *) _tep_offers folders ;;
            esac
            ;;
        split)
            case $before,$cur in
                -o,* | --out,*) _tep_offers folders ;;
                *,-*) _tep_offers words "--out --help --version" ;;
                *) _tep_offers files ;;
            esac
            ;;
        compare)
            case $before,$cur in
                --worked,*) _tep_offers folders ;;
                -u,* | --underlay,* | -s,* | --settings,*) _tep_offers files ;;
                --within,* | --shift,* | --by,* | --ignore,*) _tep_offers words "" ;;
                *,-*) _tep_offers words "--worked --underlay --settings --strict --within --shift --list --by --ignore --json --help --version" ;;
                *) _tep_offers files ;;
            esac
            ;;
        report)
            case $before,$cur in
                -o,* | --out,*) _tep_offers files ;;
                *,-*) _tep_offers words "--out --help --version" ;;
                *) _tep_offers folders ;;
            esac
            ;;
        fabric)
            case $before,$cur in
                *,-*) _tep_offers words "--help --version" ;;
                *) _tep_offers files ;;
            esac
            ;;
        help) [ "$COMP_CWORD" -gt 2 ] || _tep_offers words "run check explain migrate digest merge split compare report fabric help" ;;
    esac
}

complete -o default -F _tep tep
