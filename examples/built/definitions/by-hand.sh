"$1" header > config.h.in
sed 's/^AC_CONFIG_FILES/AC_CONFIG_HEADERS([config.h])\n&/' configure.ac > new && mv new configure.ac
sed 's/^DEFS = @DEFS@/DEFS = -include config.h/' Makefile.in > new && mv new Makefile.in
