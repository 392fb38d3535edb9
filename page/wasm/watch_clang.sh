#!/bin/sh
# watch_clang.sh FOLDER: makes FOLDER/kit, the kit of Rattle with another clang in front of its own. That one puts each module
# of LLVM's code that it is asked to compile into FOLDER/got. With STOP=WORD it ends with an error where WORD is among its own.
set -eu
folder=$1
kit=$(dirname "$(rt doc)")
made=$folder/kit
mkdir -p "$made/bin" "$made/toolchain/bin" "$folder/got"
for it in "$kit"/*; do
    case ${it##*/} in
        bin | toolchain) ;;
        *) ln -s "$it" "$made/" ;;
    esac
done
# rt finds its kit by where it lies itself, so it is copied.
for it in "$kit"/bin/*; do
    case ${it##*/} in
        rt*) cp "$it" "$made/bin/" ;;
        *) ln -s "$it" "$made/bin/" ;;
    esac
done
ln -s "$kit/toolchain/lib" "$made/toolchain/lib"
for it in "$kit"/toolchain/bin/*; do
    ln -s "$it" "$made/toolchain/bin/"
done
rm "$made/toolchain/bin/clang"
cat >"$made/toolchain/bin/clang" <<END
#!/bin/sh
for word in "\$@"; do
    case \$word in
        *.bc) cp "\$word" "$folder/got/" || exit 1 ;;
    esac
done
for word in "\$@"; do
    [ "\$word" != "${STOP:-}" ] || exit 1
done
exec "$kit/toolchain/bin/clang" "\$@"
END
chmod +x "$made/toolchain/bin/clang"
