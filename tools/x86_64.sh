# Sourced. Library and programs are compiled for x86-64 Linux. CC and CXX make further programs for it; RUN runs those that are linked with
# -static, LOAD those that the toolchain made.
# On another processor that is a cross compiler, installed here where it is missing, and the toolchain's own emulator.
if [ "$(uname -m)" = x86_64 ]; then
    CC=gcc CXX=g++ RUN='' LOAD=''
else
    command -v rt >/dev/null || { echo 'rt, the Rattle toolchain, is not on the PATH, and its emulator runs what is made for x86-64' >&2 && exit 1; }
    CC=x86_64-linux-gnu-gcc CXX=x86_64-linux-gnu-g++
    kit=$(dirname "$(dirname "$(readlink -f "$(command -v rt)")")")
    RUN=$kit/on/$(uname -m)/toolchain/bin/qemu-x86_64
    LOAD="$RUN $kit/toolchain/lib/ld-linux-x86-64.so.2 --library-path $kit/toolchain/lib"
    if ! command -v $CXX >/dev/null; then
        echo 'installing a compiler for x86-64: a minute or so' >&2
        { apt-get update && apt-get install -y --no-install-recommends gcc-x86-64-linux-gnu g++-x86-64-linux-gnu libc6-dev-amd64-cross; } >/dev/null 2>&1 ||
            { echo 'no compiler for x86-64: install gcc-x86-64-linux-gnu and g++-x86-64-linux-gnu' >&2; exit 1; }
    fi
fi
