/* `dnscanon canon` and `dnscanon same` as plain C. They are what the program's speed is measured against, and no part of it. Records are
 * borrowed from the message and compared in place. The pointers of a name are followed each time that it is read. */
#include "canon_digits.h"
#include "plain_names.h"
#include "plain_owners.h"
#include "canon_records.h"
#include "plain_order.h"
#include "canon_list.h"
#include "canon_commands.h"
