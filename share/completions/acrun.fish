# Completions of acrun for fish. Installed as vendor_completions.d/acrun.fish.

# Succeeds while no word is given.
function __acrun_begins
    test (count (commandline -opc)) -eq 1
end

# Succeeds after -jN, where only one command may follow.
function __acrun_has_window
    set -l words (commandline -opc)
    test (count $words) -eq 2; and string match -q -- '-j*' $words[2]
end

# Succeeds if the command is this one.
function __acrun_uses
    set -l words (commandline -opc)
    set -e words[1]
    string match -q -- '-j*' $words[1]; and set -e words[1]
    test "$words[1]" = $argv[1]
end

# The options and variables that the package in the source directory has.
function __acrun_package
    set -l srcdir .
    for word in (commandline -opc)
        string match -q -- '--srcdir=*' $word; and set srcdir (string replace -- --srcdir= '' $word)
    end
    test -f $srcdir/configure.ac; or return
    acrun configure --srcdir=$srcdir --help 2>/dev/null | LC_ALL=C sed -n -e 's/^ *\(--[A-Za-z0-9][-A-Za-z0-9_.+]*=\{0,1\}\).*/\1/p' -e 's/^  \([A-Za-z_][A-Za-z0-9_]*\)  .*/\1=/p'
end

# The outputs that config.status names, and what config.log has checks for. A name that a shell would read as anything else is left out.
function __acrun_outputs
    test -f config.status; and LC_ALL=C sed -n 's!^\(file\|header\) \([A-Za-z0-9_.+/][A-Za-z0-9_.+/-]*\) .*!\2!p' config.status
end
function __acrun_checks
    test -f config.log; and LC_ALL=C sed -n 's!.*checking for \([A-Za-z0-9_.+/][A-Za-z0-9_.+/-]*\)\.\.\..*!\1!p' config.log
end

complete -c acrun -f
for n in 1 2 4 8 16
    complete -c acrun -n __acrun_begins -a "-j$n" -d "$n children at once, at most"
end
complete -c acrun -n '__acrun_begins; or __acrun_has_window' -a configure -d 'Run a configure.ac'
complete -c acrun -n __acrun_begins -a status -d 'Make the outputs again'
complete -c acrun -n __acrun_begins -a lint -d 'Say what is wrong with a configure.ac'
complete -c acrun -n __acrun_begins -a port -d 'Print a configure.ac with other macros rewritten'
complete -c acrun -n __acrun_begins -a header -d 'Print a header template for a configure.ac'
complete -c acrun -n __acrun_begins -a why -d 'Say why a check has its answer'
complete -c acrun -n __acrun_begins -a standin -d "Answer in a compiler's place"
complete -c acrun -n __acrun_begins -a help -d 'Print the commands'
complete -c acrun -n __acrun_begins -l help -d 'Print the commands'
complete -c acrun -n __acrun_begins -l version -d 'Print the version'

for name in prefix exec-prefix bindir sbindir libexecdir libdir datarootdir datadir sysconfdir sharedstatedir localstatedir runstatedir includedir oldincludedir docdir infodir htmldir dvidir pdfdir psdir localedir mandir srcdir cache-file
    complete -c acrun -n '__acrun_uses configure' -l $name -r -F
end
complete -c acrun -n '__acrun_uses configure' -s C -l config-cache -d 'Keep answers in config.cache'
complete -c acrun -n '__acrun_uses configure' -s q -l quiet -d 'Print no messages'
complete -c acrun -n '__acrun_uses configure' -s n -l no-create -d 'Make no outputs'
complete -c acrun -n '__acrun_uses configure' -s h -l help -d 'The options of the package'
complete -c acrun -n '__acrun_uses configure' -s V -l version -d 'The version of the package'
complete -c acrun -n '__acrun_uses configure' -a 'CC= CFLAGS= CPPFLAGS= LDFLAGS= LIBS= (__acrun_package)'
complete -c acrun -n '__acrun_uses status' -l recheck -d 'Run configure.ac again'
complete -c acrun -n '__acrun_uses status' -a '(__acrun_outputs)'
complete -c acrun -n '__acrun_uses lint' -l json -d 'Print one object a line'
complete -c acrun -n '__acrun_uses lint' -F
complete -c acrun -n '__acrun_uses port' -l idioms -d 'Write idioms too that differ'
complete -c acrun -n '__acrun_uses port' -l package -x -d 'NAME,VERSION for AC_INIT'
complete -c acrun -n '__acrun_uses port' -F
complete -c acrun -n '__acrun_uses header' -F
complete -c acrun -n '__acrun_uses why' -F -a '(__acrun_checks)'
complete -c acrun -n '__acrun_uses help' -a 'configure status lint port header why standin help'
