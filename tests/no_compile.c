/*
 * Slips that a compiler has to see: CASE picks one, and none of these is a program. Case 0 is a right program, as C and as C++.
 */
#include "nqabelihu.h"

nqabelihu_refusal slip(nqabelihu_memory module, nqabelihu_entry *entry, uint32_t *value);

nqabelihu_refusal slip(nqabelihu_memory module, nqabelihu_entry *entry, uint32_t *value)
{
    (void)entry;
    (void)value;
#if CASE == 1 /* a result is thrown away (a warning of gcc and clang) */
    nqabelihu_trigger(module, 1);
#elif CASE == 2 /* an octal label for an SDI/Label index */
    return nqabelihu_read_mailbox(module, 1, 0324, entry);
#elif CASE == 3 /* a word for an SDI/Label index */
    return nqabelihu_write_match(module, 1, 0x6000012B, 1);
#elif CASE == 4 /* channel and setting exchanged: in C++ alone */
    return nqabelihu_write_setting(module, NQABELIHU_SETTING_RATE, 1, 9);
#elif CASE == 5 /* a condition for a setting (a warning of gcc and clang) */
    return nqabelihu_read_setting(module, 1, NQABELIHU_CONDITION_ALMOST_FULL, value);
#elif CASE == 6 /* an outcome's text of a refusal (likewise) */
    *value = (uint32_t)nqabelihu_outcome_text(NQABELIHU_REFUSED_FULL)[0];
#endif
    return nqabelihu_trigger(module, 1);
}
