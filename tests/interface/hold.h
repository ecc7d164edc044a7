/* A struct of the header has the size, and a field the position and size, of the library's; a constant its value. */
#include <kettlefrost.h>

#define WIDTH(type, name) sizeof(((type *)0)->name)
#define SIZE(header, library) _Static_assert(sizeof(header) == sizeof(library), "size of " #header)
#define FIELD(header, library, name)                                                                                   \
    _Static_assert(offsetof(header, name) == offsetof(library, name), "position of " #header "." #name);               \
    _Static_assert(WIDTH(header, name) == WIDTH(library, name), "size of " #header "." #name)
#define CONSTANT(name, value) _Static_assert(name == value, #name)
