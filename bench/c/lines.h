/* The lines that a load sends, and what the arena answers to them if each node has four ports: the whiteboards of
 * the home bases stay empty, and port 0 leads to a node that is entered by port 1. */
#ifndef LINES_H
#define LINES_H

#define ENTER "{\"do\":\"enter\",\"key\":\"%s\"}\n"
#define LOOK "{\"do\":\"look\"}\n"
#define DEPART "{\"do\":\"depart\",\"port\":0}\n"
#define WRITE(EXPECT, PUT) "{\"do\":\"write\",\"expect\":\"" EXPECT "\",\"put\":\"" PUT "\"}\n"

#define ONE_TEXT "one of the two texts of 64 bytes that stand by turns on a board."
#define OTHER_TEXT "the other one, which is of 64 bytes as well and has its own turn"

#define HERE "{\"board\":\"\",\"from\":null,\"ok\":\"here\",\"ports\":4}\n"
#define ARRIVED "{\"board\":\"\",\"from\":1,\"ok\":\"here\",\"ports\":4}\n"
#define GONE "{\"ok\":\"gone\"}\n"
#define WRITTEN "{\"ok\":\"written\"}\n"
#define CHANGED "{\"board\":\"" ONE_TEXT "\",\"ok\":\"changed\"}\n"
#define NO_LINE "{\"no\":\"line\"}\n"

#endif
