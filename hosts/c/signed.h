/*
** Packets that are signed. Of a network with keys a pharmacy signs its requests and a payer its answers, and a switch what it rejects for want
** of a route; whoever takes a packet first looks whether its signature holds. The keys and routes of a network, in a file that hosts/permissions
** has written (keys.c, routes.c), and what a signature is for (signed.c). A network without keys has none of this.
**
** What is signed is a fixed text, the name of the network, and the bytes of the packet: its head has the direction, the pharmacy and the number.
** The signature goes beside the packet, as the header Vogrilas-Signed of its message: who has signed, a space, and 128 hexadecimal digits.
*/
#ifndef SIGNED_H
#define SIGNED_H
#include <sodium.h>

#include "node.h"

#define SIGNED_HEADER "Vogrilas-Signed"
/* A node's name, a space, and a signature in digits. */
#define SIGNED_TEXT (9 + 2 * crypto_sign_BYTES + 1)
#define NETWORK_BYTES 32
/* A request, or an answer, in an envelope. */
#define MOST_PAYLOAD 32768

/*
** A row of the routes: of claims of this BIN and PCN, where it has one, and of these providers, where it is for some alone, to a payer. Or a row
** that leads to no payer, number 0: the requests of one provider up to a number, under a BIN and a PCN, stay rejected.
*/
struct route {
    unsigned char bin[6], pcn[10], qualifier[2], first[15], last[15];
    bool has_pcn, has_providers;
    unsigned payer;
    uint64_t rejected;
};

/* Reads the words of a row that leads to a payer: false where they are none. */
bool route_of_words(char *const word[6], struct route *route);
/* The same of a row that leads to none. */
bool rejected_of_words(char *const word[5], struct route *route);
/* Has the rows in the order in which they are looked up. */
void routes_sort(struct route *route, size_t count);
/* The payer to which a request of this number goes by the rows, as by those of a switch; 0 where none leads anywhere. */
unsigned route_of(const struct route *route, size_t count, uint64_t number, const unsigned char *request, size_t size);
/* Whether an answer is the one that a switch gives to this request where there is no route for it. */
bool is_rejection(const unsigned char *request, size_t request_size, const unsigned char *answer, size_t size);

/* The keys of a network as a host knows them, and its own. */
struct keys;

/* Reads FOLDER/keys and FOLDER/NODE.key; ends the process where they are refused. NULL where no folder is named. */
struct keys *keys_open(const char *folder, const char *node);
/* Reads them again where they have changed, and they are looked at once a second, or `at_once`. What is refused leaves what was. */
void keys_look(struct keys *keys, bool at_once);
void keys_close(struct keys *keys);
/* Signs a packet in printed bytes with the node's own key; false of what is no packet. */
bool keys_sign(const struct keys *keys, const char *packet, size_t size, char text[SIGNED_TEXT]);
/* Whether a signature is one of this node over a packet in printed bytes. */
bool keys_hold(const struct keys *keys, const char *text, const char *node, const char *packet, size_t size);
/* The payer to which a request of this number, in bytes, goes, or 0. */
unsigned keys_route(const struct keys *keys, uint64_t number, const unsigned char *request, size_t size);

/* The signature beside a packet, or NULL. */
const char *signed_text(natsMsg *packet);
/* Marks the messages of a turn that are not to be taken, since their signatures do not hold. */
void signed_mark(struct host *host, struct message *batch);
/* Turns such a message away. */
void signed_refuse(const struct host *host, const struct message *one);
/*
** Sends a packet that the node has sent behind this message, with the signature that belongs to it. An answer of a switch's slot whose
** signature is lost, as behind a restart, does not go: its payer is asked for it anew, as if the request had been repeated on the way.
*/
void signed_send(struct host *host, const struct message *one, const char *to, size_t to_size, const char *text, size_t size);

#endif
