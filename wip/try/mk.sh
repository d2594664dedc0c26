#!/bin/bash
# mk.sh SRCROOT MAIN NAME [crates..]: compiles the unproved program MAIN over the crates of SRCROOT into out/NAME.so
src=$1; main=$2; name=$3; shift 3
cd WORK/try; rm -f out/module-O3.bc
libs=""; for d in "$@"; do libs="$libs --lib $d=$src/crates/$d/src/lib.rt"; done
KIT/on/x86_64/bin/rattle-cases --toolchain WORK/try/tc --stdout empty $main --crate-name tryp --lib std=KIT/libs/std/src/lib.rt $libs 2>&1 | grep -v "^ok" | head -20
[ -f out/module-O3.bc ] || exit 1
C=KIT/on/x86_64/toolchain/bin/clang
$C --target=x86_64-unknown-linux-gnu -S -emit-llvm -Xclang -disable-llvm-passes -O3 -x ir out/module-O3.bc -o out/$name.ll
sed -i -E 's/^define internal (.*)@"?(tryp::)?(try_[a-z]+)"?\(/define \1@\3(/; s/@"tryp::(try_[a-z]+)"/@\1/g' out/$name.ll
$C --target=x86_64-unknown-linux-gnu -march=x86-64 -ffunction-sections -fdata-sections -mllvm -trap-unreachable -mllvm -no-trap-after-noreturn --no-default-config -no-canonical-prefixes -fintegrated-cc1 -c -x ir out/$name.ll -o out/$name.o -fPIC -O3 -Xclang -fmerge-functions -mllvm -mergefunc-use-aliases 2>&1 | head -5
gcc -shared -o out/$name.so out/$name.o && echo made out/$name.so
