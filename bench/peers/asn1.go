// asn1.Unmarshal and ObjectIdentifier.String. No call of encoding/asn1 reads text.
package main

import (
	"encoding/asn1"
	"fmt"
)

func main() {
	var der []byte
	for n, _ := fmt.Scanf("%x\n", &der); n > 0; n, _ = fmt.Scanf("%x\n", &der) {
		var oid asn1.ObjectIdentifier
		if der[0] != 6 {
			fmt.Println("no call")
		} else if rest, err := asn1.Unmarshal(der, &oid); err != nil || len(rest) > 0 {
			fmt.Println("rejected")
		} else {
			fmt.Printf("%x\n", oid.String())
		}
	}
}
