# Completions of kbroker for bash, made from what `kbroker --help` says.
_kbroker() {
    local word=${COMP_WORDS[COMP_CWORD]} before=${COMP_WORDS[COMP_CWORD - 1]} words=
    if [ "$COMP_CWORD" -eq 1 ]; then
        words="@COMMANDS@ help --help --version"
    else
        case ${COMP_WORDS[1]} in
        help) words="@COMMANDS@" ;;
@CASES@
        esac
    fi
    case $before in
    @FILES@) words= ;;
    @DASHES@) words=- ;;
    @OTHERS@)
        words=
        compopt +o default
        ;;
    esac
    COMPREPLY=($(compgen -W "$words" -- "$word"))
}
# Where there is no such word, files are offered.
complete -o default -F _kbroker kbroker
