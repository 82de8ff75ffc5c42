/* Fuzzes the packet reader, and the writer on what it reads: libFuzzer, by bindings/harden.sh. The reader must not touch a byte past its areas; what it
 * reads must be written back to the same bytes, and a refusal must leave the taps as they were. */
#include "bivelondry.h"
#include "guard.h"

enum { FILL = 0x5a, TAPS = 14 * BIV_MOST_TAPS };

size_t LLVMFuzzerMutate(uint8_t *data, size_t size, size_t most);

/* The archive tells the fuzzer nothing of its branches, so most changes keep the length, which is tested first. */
size_t LLVMFuzzerCustomMutator(uint8_t *data, size_t size, size_t most, unsigned seed)
{
    if (size == 0 || seed % 8 == 0)
        return LLVMFuzzerMutate(data, size, most);
    LLVMFuzzerMutate(data + seed / 8 % size, 1, 1);
    return size;
}

int LLVMFuzzerTestOneInput(const uint8_t *data, size_t size)
{
    static struct guard bytes, words, output;
    size_t found[3] = {7, 7, 7}, length[1] = {7};
    const uint8_t *packet = (const uint8_t *)copied(&bytes, data, size);
    uint32_t *taps = (uint32_t *)filled(&words, FILL, TAPS * sizeof(uint32_t));
    uint32_t refusal = biv_packet_read(packet, size, taps, TAPS, found);
    count(refusal);
    if (refusal != BIV_NO_REFUSAL) {
        must(refusal >= BIV_BYTES && refusal <= BIV_TAP_ORDER, "a refusal of the reader");
        must(found[0] == 0 && found[1] == 0 && found[2] == 0, "no counts after a refusal");
        must(all_are(taps, 0, TAPS * sizeof(uint32_t), FILL), "the taps as they were after a refusal");
        return 0;
    }
    must(found[0] <= BIV_MOST_TAPS && all_are(taps, found[0] * 56, TAPS * sizeof(uint32_t), FILL), "nothing past the last tap");
    uint8_t *out = (uint8_t *)filled(&output, FILL, BIV_OUTPUT_BYTES);
    refusal = biv_packet_write(found[0], (uint32_t)found[1], (uint32_t)found[2], taps, TAPS, out, BIV_OUTPUT_BYTES, length);
    must(refusal == BIV_NO_REFUSAL && length[0] == size && memcmp(out, data, size) == 0, "what is read is written back");
    must(all_are(out, size, BIV_OUTPUT_BYTES, FILL), "nothing past the packet");
    return 0;
}
