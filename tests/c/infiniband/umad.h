/* A stand-in for libibumad's header, with what record, send and seat use: tests/c/umad.c has the port for whole tools,
   and tests/c/carry_rows.c the one for a part of seat. */
#ifndef STAND_IN_UMAD_H
#define STAND_IN_UMAD_H

#include <arpa/inet.h>
#include <stdint.h>

enum { UMAD_CA_NAME_LEN = 20, UMAD_MAX_DEVICES = 32 };

typedef struct {
	char ca_name[UMAD_CA_NAME_LEN], link_layer[UMAD_CA_NAME_LEN];
	int portnum;
	unsigned state;
	uint64_t port_guid;
} umad_port_t;

typedef struct {
	uint32_t qpn;		/* most significant byte first, as lid */
	uint16_t lid, pkey_index;
	uint8_t sl;
} ib_mad_addr_t;

int umad_init(void);
int umad_get_cas_names(char names[][UMAD_CA_NAME_LEN], int most);
int umad_get_port(const char *adapter, int number, umad_port_t *port);
int umad_release_port(umad_port_t *port);
int umad_open_port(const char *adapter, int number);
int umad_close_port(int port);
int umad_register(int port, int class, int version, uint8_t rmpp, long methods[]);
int umad_unregister(int port, int agent);
void *umad_get_mad(void *umad);
int umad_status(void *umad);
ib_mad_addr_t *umad_get_mad_addr(void *umad);
int umad_get_fd(int port);
int umad_get_issm_path(const char *adapter, int number, char *path, int room);
int umad_set_pkey(void *umad, int index);
int umad_set_addr(void *umad, int lid, int queue_pair, int level, int key);
int umad_send(int port, int agent, void *umad, int length, int timeout_ms, int retries);
int umad_recv(int port, void *umad, int *length, int timeout_ms);

#endif
