/* (Version 16 has moved these macros out of postgres.h.) */
