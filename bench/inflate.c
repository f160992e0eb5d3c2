/* Inflates its recorded input, a zlib stream, and writes what comes out. It ends with 0 where the stream came to a good end, and
   with 1 where it didn't.

   The work is done by zlib 1.2.13, (C) 1995-2022 Jean-loup Gailly and Mark Adler, whose licence, the zlib licence, allows that.
   Four of its files are compiled unchanged; Z_SOLO makes do without a C library, and NO_GZIP leaves out streams of gzip. The file
   inflate.elf was made here with Debian's gcc-riscv64-unknown-elf, and with zlib as `apt-get source zlib` has it in Debian 12:

     mkdir -p out && (cd out && apt-get source zlib)
     z=out/zlib-1.2.13.dfsg
     riscv64-unknown-elf-gcc -march=rv32im -mabi=ilp32 -O2 -s -ffreestanding -nostdlib -nostartfiles -static \
       -Wl,-Ttext=0x10000,--build-id=none,-n,--no-warn-rwx-segments -DZ_SOLO -DNO_GZIP -I$z ../examples/start.S inflate.c \
       $z/inflate.c $z/inftrees.c $z/inffast.c $z/adler32.c -o inflate.elf */
#include "../examples/calls.h"
#include "zlib.h"

static unsigned char input[512], output[4096];

/* What zlib asks memory for, once each: its state, and its window of 32 KB. Nothing is given back. */
static unsigned long memory[10240];
static unsigned long taken;

static void *take(void *opaque, unsigned items, unsigned size) {
    unsigned long words = (items * size + sizeof *memory - 1) / sizeof *memory;
    if (words > sizeof memory / sizeof *memory - taken)
        return 0;
    taken += words;
    return &memory[taken - words];
}

static void give_back(void *opaque, void *bytes) {
}

/* All that zlib wants of a C library here. */
void zmemcpy(unsigned char *to, const unsigned char *from, unsigned count) {
    while (count-- > 0)
        *to++ = *from++;
}

static z_stream stream = {.next_out = output, .avail_out = sizeof output, .zalloc = take, .zfree = give_back};

static void write_output(void) {
    write(1, output, sizeof output - stream.avail_out);
    stream.next_out = output;
    stream.avail_out = sizeof output;
}

int main(void) {
    long count;
    int status = inflateInit(&stream);
    while ((count = read(0, input, sizeof input)) > 0) {
        stream.next_in = input;
        stream.avail_in = count;
        /* Output that is left behind where a piece is used up comes with the next one: behind the last of it are the bytes of the
           checksum. */
        while (status == Z_OK && stream.avail_in > 0) {
            status = inflate(&stream, Z_NO_FLUSH);
            if (stream.avail_out == 0)
                write_output();
        }
    }
    write_output();
    return status != Z_STREAM_END;
}
