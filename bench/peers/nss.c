#include <cert.h> /* SEC_StringToOID; CERT_GetOidString: a text, mostly after OID., with UNSUPPORTED for a large arc */
#include <prprf.h>

int text_to_octets(const char *text, size_t len, uint8_t *out) {
    SECItem item = {siBuffer, out, ROOM - 2};
    return SEC_StringToOID(NULL, &item, text, (PRUint32)len) == SECSuccess ? (int)item.len : REJECTED;
}

int octets_to_text(const uint8_t *der, size_t len, char *out) {
    SECItem item = {siDEROID, (unsigned char *)der + 2, (unsigned)len - 2};
    char *text = CERT_GetOidString(&item);
    int prefix = text && !strncmp(text, "OID.", 4) ? 4 : 0;
    int size = text && !strstr(text, "UNSUPPORTED") ? sprintf(out, "%s", text + prefix) : REJECTED;
    PR_smprintf_free(text);
    return size;
}
