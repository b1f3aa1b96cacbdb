#include <botan/ber_dec.h> // OID(text) and DER_Encoder; BER_Decoder and OID::to_string
#include <botan/der_enc.h>

int text_to_octets(const char *text, size_t len, uint8_t *out) try {
    std::vector<uint8_t> der;
    Botan::DER_Encoder(der).encode(Botan::OID(std::string(text, len)));
    memcpy(out, der.data() + 2, der.size() - 2);
    return static_cast<int>(der.size() - 2);
} catch (const std::exception &) {
    return REJECTED;
}

int octets_to_text(const uint8_t *der, size_t len, char *out) try {
    Botan::OID oid;
    Botan::BER_Decoder(der, len).decode(oid).verify_end();
    return sprintf(out, "%s", oid.to_string().c_str());
} catch (const std::exception &) {
    return REJECTED;
}
