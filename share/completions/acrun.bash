# Completions of acrun for bash 4 or later. Installed as bash-completion/completions/acrun; or read it with `.`.
# Texts of others reach no `compgen -W` and no `compopt -o filenames`, since both may run a command that is in a text.

# The options and variables that the package in the source directory has.
_acrun_package() {
    local srcdir=.
    [[ ! $COMP_LINE =~ --srcdir=([^ ]+) ]] || srcdir=${BASH_REMATCH[1]}
    [[ -f $srcdir/configure.ac ]] || return
    acrun configure "--srcdir=$srcdir" --help 2>/dev/null |
        LC_ALL=C sed -n -e 's/^ *\(--[A-Za-z0-9][-A-Za-z0-9_.+]*=\{0,1\}\).*/\1/p' -e 's/^  \([A-Za-z_][A-Za-z0-9_]*\)  .*/\1=/p'
}

# The outputs that config.status names, and what config.log has checks for. A name that a shell would read as anything else is left out.
_acrun_outputs() {
    [[ ! -f config.status ]] || LC_ALL=C sed -n 's!^\(file\|header\) \([A-Za-z0-9_.+/][A-Za-z0-9_.+/-]*\) .*!\2!p' config.status
}
_acrun_checks() {
    [[ ! -f config.log ]] || LC_ALL=C sed -n 's!.*checking for \([A-Za-z0-9_.+/][A-Za-z0-9_.+/-]*\)\.\.\..*!\1!p' config.log
}

# Offers those of the words after the first one that begin with it.
_acrun_offer() {
    local typed=$1 each
    shift
    for each; do
        [[ $each != "$typed"* ]] || COMPREPLY+=("$each")
    done
    [[ ${COMPREPLY[0]-} != *= ]] || compopt -o nospace
}

_acrun() {
    local word=${COMP_WORDS[COMP_CWORD]} at=1 name words
    COMPREPLY=()
    if [[ ${COMP_WORDS[1]} == -j* ]]; then at=2; fi
    if ((COMP_CWORD == at)); then
        words=(configure)
        if ((at == 1)); then words+=(status lint port header why standin help --help --version -j1 -j2 -j4 -j8 -j16); fi
        _acrun_offer "$word" "${words[@]}"
        return
    fi
    case ${COMP_WORDS[at]} in
    configure)
        # bash takes the `=` of an option for a word of its own.
        if [[ $word == = || ${COMP_WORDS[COMP_CWORD - 1]} == = ]]; then
            compopt -o default
            return
        fi
        mapfile -t words < <(_acrun_package)
        for name in prefix exec-prefix bindir sbindir libexecdir libdir datarootdir datadir sysconfdir sharedstatedir localstatedir \
            runstatedir includedir oldincludedir docdir infodir htmldir dvidir pdfdir psdir localedir mandir srcdir cache-file; do
            words+=("--$name=")
        done
        words+=(--config-cache --quiet --silent --no-create --help --version -C -q -n -h -V CC= CFLAGS= CPPFLAGS= LDFLAGS= LIBS=)
        _acrun_offer "$word" "${words[@]}"
        ;;
    status)
        mapfile -t words < <(_acrun_outputs)
        _acrun_offer "$word" --recheck "${words[@]}"
        ;;
    lint | port)
        if [[ ${COMP_WORDS[at]} == lint ]]; then words=(--json); else words=(--idioms --package=); fi
        # What begins with no dash is a file, which bash completes by itself.
        if [[ $word == -* ]]; then _acrun_offer "$word" "${words[@]}"; else compopt -o default; fi
        ;;
    header) compopt -o default ;;
    why)
        if ((COMP_CWORD == at + 1)); then
            mapfile -t words < <(_acrun_checks)
            _acrun_offer "$word" "${words[@]}"
        else
            compopt -o default
        fi
        ;;
    help) _acrun_offer "$word" configure status lint port header why standin help ;;
    esac
}

complete -F _acrun acrun
