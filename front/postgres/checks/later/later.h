/* What PostgreSQL 16 to 18 declare otherwise than 15, put over what 15 has: so front/postgres/test compiles what is written for them.
 * It says nothing of how the module runs there. */
#include "postgres.h"

#include "commands/vacuum.h"
#include "utils/rangetypes.h"

#undef PG_VERSION_NUM
#define PG_VERSION_NUM 180000
#define vacuum_delay_point(is_analyze) ((void)sizeof(is_analyze), vacuum_delay_point())
#define range_serialize(type, lower, upper, empty, context) range_serialize(type, lower, upper, (empty) && (context) == NULL)
