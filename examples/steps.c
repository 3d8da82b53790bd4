/* Reads the name of a peer and writes it into a journal, by functions of a library of its own. */
struct peer {
    int socket;
    char name[64];
};

extern int peer_read(int socket, char *buffer, int size);
extern void journal(const char *format, ...);

static void meet(struct peer *peer)
{
    peer_read(peer->socket, peer->name, sizeof peer->name);
}

static void greet(struct peer *peer)
{
    journal("met %s", peer->name);
    journal(peer->name);
}

void serve(struct peer *peer)
{
    meet(peer);
    greet(peer);
}
