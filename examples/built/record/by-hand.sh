sed 's|CONFIG_FILES=$@ CONFIG_HEADERS= ./config.status|'"$1"' status $@|; s|$(SHELL) ./config.status --recheck|'"$1"' status --recheck|' Makefile.in > new && mv new Makefile.in
