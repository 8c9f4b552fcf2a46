/* The pieces of the program's memory that a request uses, of a message or a collective (buffer_check.c). */
#ifndef WZ_LOANS_H
#define WZ_LOANS_H

#include "collectives.h"

int pieces_sent(const struct request *request);
struct piece sent_piece(const struct request *request, int i);
int pieces_received(const struct request *request);
struct piece received_piece(const struct request *request, int i);

#endif
