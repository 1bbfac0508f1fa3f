/* The boards to try of document 01 and its printed journal, with the places and answers of document 02's Tickets 1 and 11, on both sides. */
#ifndef DOCUMENT_H
#define DOCUMENT_H

#include "steps.h"

bool document_agrees(Play *play);

#endif
