/* Calls of a node through the library for C: `calls KIND CAPACITY COUNT`, as src/main.rt.in makes them in Rattle. */
#include "txc.h"
#include <stdio.h>
#include <stdlib.h>
#include <string.h>

enum { ROOM = 1024 };

static txc_node node = TXC_NODE_CLOSED;

static void insert(const txc_key *key, uint32_t id) {
    const txc_tag tag = {1, TXC_ID, id};
    const txc_reach reach = {0, 0, true};
    uint8_t value[16];
    txc_stored stored;
    memset(value, 7, sizeof value);
    if (txc_node_insert(&node, key, &reach, &tag, 1, value, sizeof value, &stored) != TXC_DONE)
        exit(1);
}

static uint32_t look(const txc_key *key, uint8_t *value) {
    txc_reach reach;
    size_t len;
    uint32_t number = txc_node_lookup(&node, key, 0, 0, &reach, value, ROOM, &len);
    return number == TXC_DONE ? reach.known + 1 : 0;
}

int main(int words, char **word) {
    if (words != 4)
        return 2;
    uint32_t capacity = (uint32_t)strtoul(word[2], NULL, 10), count = (uint32_t)strtoul(word[3], NULL, 10), found = 0;
    uint8_t value[ROOM] = {0};
    if (txc_node_open(&node, capacity, 64) != TXC_DONE)
        return 1;
    for (uint32_t number = 0; number < capacity; number++)
        insert(&(txc_key){1, 1, {number}}, number);
    if (!strcmp(word[1], "hit") || !strcmp(word[1], "miss"))
        for (uint32_t number = 0; number < count; number++)
            found += look(&(txc_key){word[1][0] == 'h' ? 1 : 2, 1, {number * 2654435761u % capacity}}, value);
    else
        for (uint32_t number = 0; number < count; number++)
            insert(&(txc_key){3, 1, {number}}, number);
    printf("%u\n", found);
    return txc_node_close(&node) != TXC_DONE;
}
