#compdef kbroker
# Completions of kbroker for zsh, made from what `kbroker --help` says.
_kbroker() {
    local curcontext=$curcontext state line
    local -a commands=(
@COMMANDS@
    )
    _arguments -C '(- :)'{-h,--help}'[Print help]' '(- :)'{-V,--version}'[Print version]' ':command:->command' '*::word:->word'
    case $state in
    command)
        _describe command commands -- '(help\:"Print the help of a command")'
        ;;
    word)
        case $words[1] in
        help)
            _describe command commands
            ;;
@CASES@
        esac
        ;;
    esac
}
_kbroker "$@"
