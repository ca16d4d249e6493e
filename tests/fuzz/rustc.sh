#!/bin/sh
# The compiler as cargo calls it for the guided program: rustc.sh RUSTC ARGUMENTS.. The second reader counts which of its edges an input
# reaches, in the form that libFuzzer reads, and looks for numbers that overflow; the program is linked with libFuzzer, which comes with clang.
coverage='-Cllvm-args=-sanitizer-coverage-level=3 -Cllvm-args=-sanitizer-coverage-inline-8bit-counters -Cllvm-args=-sanitizer-coverage-pc-table'
case " $* " in
*' --crate-name second_reader '*) exec "$@" -Ccodegen-units=1 -Coverflow-checks=yes -Cpasses=sancov-module $coverage ;;
*' --crate-name guided '*) exec "$@" -Clinker=clang -Clink-arg=-fsanitize=fuzzer ;;
*) exec "$@" ;;
esac
