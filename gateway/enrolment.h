/*
 * What passes between a gate and a gateway once they are logged in: the gate sends lines, and each line X is answered with the line "enrolled X", an empty one
 * with nothing. A line ends in LF, and a CR before that is no part of it.
 */
#ifndef HOST_ENROLMENT_H
#define HOST_ENROLMENT_H

enum { LINE_LIMIT = 256 }; /* of a gate's line, without its line end */

#endif
