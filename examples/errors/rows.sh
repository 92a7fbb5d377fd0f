# The errors of examples/errors/run.sh, in the order in which a user may meet them.
# shellcheck shell=sh disable=SC2016

# The words after acrun
new 'a misspelt command'; ac; row confgure
new 'a word after a command'; ac; row help cofigure
new 'an option that lint does not have'; ac; row lint --jsn
new 'two sources for port'; ac; row port a b
new 'help of a command'; ac; row lint --help
new 'no acrun-tools beside acrun'; ac; alone lint
new 'too many children'; ac; row -j17 configure
new 'no children'; ac; row -j0 configure
new 'children without a command'; ac; row -j4
new 'children after the command'; ac; row configure -j4
new 'a word after recheck'; ac; row status --recheck Makefile

# The options of a run
new 'a misspelt option'; ac; row configure --prefx=/usr
new 'an option without its value'; ac; row configure --prefix
new 'a name that is not that of a variable'; ac; row configure 1X=2
new 'a prefix that is not absolute'; ac; row configure --prefix=usr
new 'an empty directory'; ac; row configure --bindir=
new 'directories that are absolute or made of variables'; ac; row configure --prefix= --exec-prefix=NONE '--bindir=$x' --libdir=/lib '--mandir=\a' 'datadir=C:/a'
new 'several directories that are not absolute'; ac; row configure --mandir=man --exec-prefix=a bindir=NONE

# Files
new 'no configure.ac'; row configure
new 'the old name of a source'; ac; mv configure.ac configure.in; row configure
new 'a source directory that is not there'; ac; row configure --srcdir=nowhere
new 'a source that is a directory'; mkdir configure.ac; row configure
new 'a template that is not there'; ac 'AC_CONFIG_FILES([Makefile])'; row configure
new 'no file for lint'; row lint nofile
new 'no file for port'; row port nofile
new 'no log for why'; row why stdio.h
new 'a log of Autoconf'; echo 'This file contains any messages produced by compilers' > config.log; row why stdio.h
new 'no record for why'; row why
new 'no record for status'; row status
new 'a record of Autoconf'; printf '#!/bin/sh\n' > config.status; row status
new 'an output that the record does not have'; ac 'AC_CONFIG_FILES([Makefile])'; echo x > Makefile.in; echo '"$ACRUN" configure' > before; row status Makfile

# The source
new 'a macro that acrun does not know'; ac 'AC_NOPE'; row configure
new 'a misspelt macro'; ac 'AC_CHECK_HEADER5([stdio.h])'; row configure
new 'shell if'; ac 'if test -n "$x"; then' 'y=1' 'fi'; row configure
new 'a command'; ac 'echo hello'; row configure
new 'a quote that is open'; ac "x='abc"; row configure
new 'a parenthesis too many'; ac 'AC_CHECK_HEADERS([stdio.h]))'; row configure
new 'a bracket too many'; ac 'AC_CHECK_HEADERS([stdio.h]])'; row configure
new 'a parenthesis that is open'; ac 'AC_CHECK_HEADERS([stdio.h]'; row configure
new 'a blank before a parenthesis'; ac 'AC_CHECK_HEADERS ([stdio.h])'; row configure
new 'an argument that is missing'; ac 'AC_CHECK_LIB([z])'; row configure
new 'a header in angle brackets'; ac 'AC_CHECK_HEADERS([<stdio.h>])'; row configure
new 'functions with commas'; ac 'AC_CHECK_FUNCS([a, b])'; row configure
new 'an output above the directory'; ac 'AC_CONFIG_FILES([../Makefile])'; row configure
new 'an output with two templates'; ac 'AC_CONFIG_FILES([a:b:c])'; row configure
new 'an output that is named twice'; ac 'AC_CONFIG_FILES([Makefile])' 'AC_CONFIG_FILES([Makefile])'; row configure
new 'a name that C does not allow'; ac 'AC_DEFINE([HAVE-X],[1])'; row configure
new 'a test with two equal signs'; ac 'AS_IF([test "$a" == b],[c=1])'; row configure
new 'a later Autoconf'; { echo 'AC_PREREQ([2.72])'; echo 'AC_INIT([demo],[1.0])'; echo AC_OUTPUT; } > configure.ac; row configure
new 'line ends of another system'; printf 'AC_INIT([demo],[1.0])\r\nAC_OUTPUT\r\n' > configure.ac; row configure
new 'an empty source'; : > configure.ac; row configure
new 'a filter without a line'; row
new 'an error in what is filtered'; printf 'AC_INIT([a],[1])\nAC_NOPE\nAC_OUTPUT\n%%%%\nx\n' > input; row

# Caches and precious variables
new 'a line that is not of a cache'; ac; printf 'a_cv_b=1\nhello world\n' > config.cache; row configure -C
new 'a line of a cache that sets another name'; ac; echo 'CC=gcc' > config.cache; row configure -C
new 'another compiler than that of the cache'; ac AC_PROG_CC; echo '"$ACRUN" configure -C CC=./yes' > before; row configure -C CC=./no

# Compilers
new 'no AC_PROG_CC'; ac 'AC_CHECK_HEADERS([stdio.h])'; row configure
new 'a compiler that is not there'; ac AC_PROG_CC 'AC_CHECK_HEADERS([stdio.h])'; row configure CC=/nowhere/gcc
new 'a compiler that is lost after the first header'; ac AC_PROG_CC 'AC_CHECK_HEADERS([stdio.h])' 'AC_CHECK_HEADERS([unistd.h])'
printf '#!/bin/sh\nrm lost\n' > lost; chmod +x lost; row configure CC=./lost
new 'a compiler that is lost within a list'; ac AC_PROG_CC 'AC_CHECK_HEADERS([stdio.h unistd.h])'
printf '#!/bin/sh\nrm lost\n' > lost; chmod +x lost; row configure CC=./lost
new 'a program of a test that is lost'; ac AC_PROG_CC 'AC_RUN_IFELSE([AC_LANG_PROGRAM([],[])],[a=1])'; row configure CC=./yes
new 'a compiler in quotes'; ac AC_PROG_CC 'AC_CHECK_HEADERS([stdio.h])'; row configure 'CC="my gcc"'
new 'a compiler that is a directory'; ac AC_PROG_CC 'AC_CHECK_HEADERS([stdio.h])'; row configure CC=/tmp
new 'a compiler that may not be executed'; ac AC_PROG_CC 'AC_CHECK_HEADERS([stdio.h])'; : > plain; row configure CC=./plain
new 'a conftest that cannot be written'; ac AC_PROG_CC 'AC_CHECK_HEADERS([stdio.h])'; mkdir conftest1.c; row configure CC=./yes
new 'an object file that is a directory'; ac AC_PROG_CC 'AC_CHECK_HEADERS([stdio.h])'; mkdir conftest1.o; row configure CC=./yes
new 'flags that are wrong'; ac AC_PROG_CC 'AC_CHECK_HEADERS([stdio.h unistd.h])' 'AC_CHECK_FUNCS([getline])'; row configure CC=./no
new 'flags that are wrong, of compiles alone'; ac AC_PROG_CC 'AC_CHECK_HEADERS([stdio.h unistd.h])'; row configure CC=./no CFLAGS=-O99x
new 'flags that are wrong, of links alone'; ac AC_PROG_CC 'AC_CHECK_FUNCS([getline strdup])'; row configure CC=./no
new 'flags that are wrong, and a test without a message'; ac AC_PROG_CC 'AC_COMPILE_IFELSE([AC_LANG_PROGRAM([],[])],[a=1])'; row configure CC=./no
new 'flags that are wrong, and an error'; ac AC_PROG_CC 'AC_CHECK_HEADERS([stdio.h],[],[AC_MSG_ERROR([stdio.h is missing])])'; row configure CC=./no
new 'links that fail'; ac AC_PROG_CC 'AC_CHECK_HEADERS([stdio.h])' 'AC_CHECK_FUNCS([getline strdup puts])'; row configure CC=./nolink
new 'two links that fail'; ac AC_PROG_CC 'AC_CHECK_HEADERS([stdio.h])' 'AC_CHECK_FUNCS([getline strdup])'; row configure CC=./nolink
new 'compiles that fail'; ac AC_PROG_CC 'AC_CHECK_HEADERS([stdio.h unistd.h fcntl.h])' 'AC_CHECK_FUNCS([puts])'; row configure CC=./nohead
new 'a preprocessor that fails'; ac AC_PROG_CC 'AC_PREPROC_IFELSE([AC_LANG_PROGRAM([],[])],[a=1])'; row configure CC=./yes CPP=./no
new 'a compiler without room'; ac AC_PROG_CC 'AC_CHECK_FUNCS([getline])'; row configure -C CC=./full
new 'a compiler that a signal ends'; ac AC_PROG_CC 'AC_CHECK_FUNCS([getline])'
printf '#!/bin/sh\nkill -9 $$\n' > killed; chmod +x killed; row configure CC=./killed
new 'a compiler that may not read'; ac AC_PROG_CC 'AC_CHECK_FUNCS([getline])'
printf '#!/bin/sh\necho "cc1: fatal error: $3: Permission denied" >&2\nexit 1\n' > barred; chmod +x barred; row configure CC=./barred
new 'a compiler whose arguments are too long'; ac AC_PROG_CC 'AC_CHECK_FUNCS([getline])'
printf '#!/bin/sh\necho "cc: error: cc1: Argument list too long" >&2\nexit 1\n' > long; chmod +x long; row configure CC=./long
new 'a search in which a signal ends sh'; ac 'AC_CHECK_PROG([T],[ls],[found],[none])'
printf '#!/bin/sh\nkill -9 $$\n' > sh; chmod +x sh; row configure -C
new 'a search in which sh fails'; ac 'AC_CHECK_PROG([T],[ls],[found],[none])'
printf '#!/bin/sh\nexit 127\n' > sh; chmod +x sh; row configure
new 'an answer that is no'; ac AC_PROG_CC 'AC_CHECK_FUNCS([getline])' 'AC_CHECK_HEADERS([stdio.h])'; row configure CC=./nolink

# Outputs
new 'an output that is its template'; ac 'AC_CONFIG_FILES([Makefile.in:Makefile.in])'; echo x > Makefile.in; row configure
new 'an output that is the template of another one'; ac 'AC_CONFIG_FILES([Makefile Makefile.in:t])'; echo x > t; echo y > Makefile.in; row configure
new 'an output that is the source'; ac 'AC_CONFIG_FILES([configure.ac:t])'; echo x > t; row configure
new 'an output that is the log'; ac 'AC_CONFIG_FILES([config.log:t])'; echo x > t; row configure
new 'an output that is a link to the source'; ac 'AC_CONFIG_FILES([a:t])'; echo x > t; ln -s configure.ac a; row configure
new 'an output in a file'; ac 'AC_CONFIG_FILES([src/Makefile:t])'; echo x > t; echo y > src; row configure
new 'an output two directories below a file'; ac 'AC_CONFIG_FILES([src/a/Makefile:t])'; echo x > t; echo y > src; row configure
new 'an output that is a directory'; ac 'AC_CONFIG_FILES([a:t])'; echo x > t; mkdir a; row configure

# The log of a build by share/configure, which has no ACRUN_WHY in its environment
new 'in the log of a build: an error of the source'; ac AC_PROG_CC 'AC_CHECK_HEADERS([stdio.h]))'; built CC=./yes
new 'in the log of a build: a template that is not there'; ac AC_PROG_CC 'AC_CONFIG_FILES([Makefile])'; built CC=./yes
new 'in the log of a build: a compiler that is not there'; ac AC_PROG_CC 'AC_CHECK_HEADERS([stdio.h])'; built CC=/nowhere/gcc
new 'in the log of a build: flags that are wrong'; ac AC_PROG_CC 'AC_CHECK_HEADERS([stdio.h unistd.h])' 'AC_CHECK_FUNCS([getline])'; built CC=./no CFLAGS=-O99x
new 'in the log of a build: a program that is looked for'; ac 'AC_CHECK_PROG([YES],[yes],[found])' AC_PROG_CC; built CC=./yes
