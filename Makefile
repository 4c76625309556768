# The gate and the programs. All need the Rattle kit (the command rt); the tests need gcc, g++ and python3.
.PHONY: test run check channel

# The gate: every proof, every must-fail edit, every program against its recorded output, then the C program against the
# exported functions, every refusal and boardplay's text.
test:
	.ci/run

# What changed since the last check.
check:
	rt all check

# The main job: the unit list of a sample file of two segments.
run:
	tools/built boardlist
	@target/bin/boardlist <crates/boardlist/stdin

# A channel from files, in C over the exported functions: target/channel (examples/channel.c says how to call it).
channel:
	tools/built capi
	gcc -std=c11 -Wall -Wextra -Werror -O2 -o target/channel examples/channel.c target/staticlib/libcapi.a
