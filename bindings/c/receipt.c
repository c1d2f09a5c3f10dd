/* dv_receipt of libdivrelca.a and libdivrelca.so: `make lib` names the sum once all is proved. */
#include "divrelca.h"
#include <string.h>

#ifndef DV_RECEIPT
#define DV_RECEIPT "not proved"
#endif

void dv_receipt(dv_bytes *text) {
  text->at = (const uint8_t *)DV_RECEIPT;
  text->len = strlen(DV_RECEIPT);
}
