cat > Makefile.in <<'END'
prefix = @prefix@
exec_prefix = @exec_prefix@
bindir = @bindir@
CC = @CC@
CFLAGS = @CFLAGS@

all: hello

hello: hello.c
	$(CC) $(CFLAGS) -o hello hello.c

install: all
	mkdir -p $(DESTDIR)$(bindir)
	cp hello $(DESTDIR)$(bindir)/hello
END
