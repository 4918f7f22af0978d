/* What trace.c calls of a peer: one file for each peer defines these. A call that fails ends the program by `fail`. */
#include <stddef.h>

/* What the peer is set to, as words for people. */
const char *peer_settings(void);

/* Opens the database in a folder, or makes it if there is none. */
void peer_open(const char *folder);

/* Adds a put to the batch. */
void peer_put(const void *id, const void *bytes, size_t length);

/* Makes the batch durable. */
void peer_commit(void);

/* Gets a shard, and hands its bytes to `got`. */
void peer_get(const void *id);

void peer_close(void);

/* Takes what a get found. */
void got(const void *bytes, size_t length);

/* Prints what failed, and why, and ends the program. */
_Noreturn void fail(const char *what, const char *why);

/* How many bytes an identifier has. */
enum { ID = 16 };
