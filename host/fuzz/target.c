/* libFuzzer's entry for one export. -DENTRY names its function in host/compare/src/fuzz.rs, which ends the program where
 * the library and the model differ. */
#include <stddef.h>
#include <stdint.h>

void ENTRY(const uint8_t *data, size_t size);
int LLVMFuzzerTestOneInput(const uint8_t *data, size_t size);

int LLVMFuzzerTestOneInput(const uint8_t *data, size_t size)
{
    ENTRY(data, size);
    return 0;
}
