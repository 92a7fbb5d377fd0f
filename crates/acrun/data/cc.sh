# Accepts a conftest that includes have.h, if there is nothing to read on standard input, and the log of an earlier run is gone.
for conftest; do :; done
[ -z "$(cat)" ] && [ ! -e config.log ] && grep -q have "$conftest"
