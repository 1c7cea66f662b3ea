/* The names of the statuses, nr_fault_name; and the version, nr_version. */
#include "nr.h"

const char *nr_version(void) { return NR_VERSION; }

#define SENTENCE(status, name, text) case status: return #name;

const char *nr_fault_name(uint32_t status) {
    switch (status) {
    case NR_OK: return "Ok";
#include "octave/nr_sentences.h"
    default: return "unknown";
    }
}
