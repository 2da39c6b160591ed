/* The exit status of the desk. */
#ifndef DESK_STATUS_H
#define DESK_STATUS_H

enum status { FINE = 0, REFUSED = 1, TROUBLE = 2 };

#endif
