/* How deep a call writes the stack. A call that is written as
 *
 *   PAINTED(sklyapina_close)(table, id)
 *
 * is sklyapina_close(table, id), but made by painted_call: it paints the stack below the place of the return address,
 * makes the call, and looks for the deepest word that is paint no more.
 *
 *   caller's  | its own variables, a table among them, and the room for the answer
 *             | arguments that are passed on the stack: a table by value
 *             | the return address
 *   painted   | what the call writes, and all that it calls: memcpy and memmove too      painted_depth bytes
 *             | still paint
 *
 * Room that is taken and never written does not show here; tests/stack has it from the compiler. */
#ifndef PAINTED_H
#define PAINTED_H

#include <stddef.h>

/* Bytes that are painted: all the stack that the small build has (document 02, W4). Where painted_depth is as much, the
 * call may have gone deeper. */
enum { PAINTED_SIZE = 4096 };

/* Of the last call: bytes from the deepest word that it wrote to its return address. */
extern size_t painted_depth;

/* The function that painted_call makes a call of, with the arguments that it is itself given. */
extern void (*painted_function)(void);
void painted_call(void);

/* painted_call as a function of another's type. No argument may be a painted call itself. */
#define PAINTED(function) \
    (painted_function = (void (*)(void))(function), (__typeof__(&*(function)))painted_call)

#endif
