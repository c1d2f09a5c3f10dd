//! Signatures of algorithms that the library does not compute, judged by `ring`: RSA with SHA-2, ECDSA over P-256 and P-384, and security keys. Keys
//! and signatures are as they go over the wire (RFC 4253, 6.6; RFC 5656, 3.1; RFC 8332; OpenSSH's PROTOCOL.u2f).

use crate::Question;
use divrelca::wire::Take;
use ring::digest::{digest, SHA256};
use ring::signature::{self, RsaParameters, RsaPublicKeyComponents, UnparsedPublicKey, VerificationAlgorithm};

/// The algorithms of which `verify` judges signatures, with commas, as `server::Config::user_algorithms` announces them.
pub const ALGORITHMS: &str = "ssh-ed25519,sk-ssh-ed25519@openssh.com,sk-ecdsa-sha2-nistp256@openssh.com,\
                              ecdsa-sha2-nistp256,ecdsa-sha2-nistp384,rsa-sha2-512,rsa-sha2-256";

// The user of a security key touched it.
const PRESENT: u8 = 1;

/// Whether this is the signature of the text by this key, under the algorithm. An RSA key has 2,048 bits at least, and the user of a security key has
/// to have touched it. False for every other algorithm, and for what is no key or no signature.
pub fn verify(algorithm: &str, key: &[u8], text: &[u8], signature: &[u8]) -> bool {
    judge(algorithm, Take(key), text, Take(signature)).unwrap_or(false)
}

/// Whether the signature that a question is about is right; none where it is about something else.
pub fn answer(question: &Question) -> Option<bool> {
    match question {
        Question::Signature { algorithm, key, text, signature, .. } | Question::HostSignature { algorithm, key, text, signature } => {
            Some(verify(algorithm, key, text, signature))
        }
        _ => None,
    }
}

/// Whether a key of this type signs under this algorithm. A key of RSA signs with SHA-2 alone (RFC 8332, section 3).
pub fn is_of(algorithm: &str, kind: &str) -> bool {
    match algorithm {
        "rsa-sha2-512" | "rsa-sha2-256" => kind == "ssh-rsa",
        "ssh-rsa" => false,
        _ => algorithm == kind,
    }
}

fn judge(algorithm: &str, mut key: Take<'_>, text: &[u8], mut signature: Take<'_>) -> Option<bool> {
    let (kind, named) = (key.text()?, signature.text()?);
    if !is_of(algorithm, kind) || named != algorithm {
        return None;
    }
    let signed = signature.string()?;
    let is_right = match algorithm {
        "rsa-sha2-512" => by_rsa(&signature::RSA_PKCS1_2048_8192_SHA512, &mut key, text, signed)?,
        "rsa-sha2-256" => by_rsa(&signature::RSA_PKCS1_2048_8192_SHA256, &mut key, text, signed)?,
        "ecdsa-sha2-nistp256" => by_curve(&P256, point(&mut key, &P256)?, text, signed)?,
        "ecdsa-sha2-nistp384" => by_curve(&P384, point(&mut key, &P384)?, text, signed)?,
        "ssh-ed25519" => is_by(&signature::ED25519, key.string()?, text, signed),
        "sk-ssh-ed25519@openssh.com" => {
            let point = key.string()?;
            is_by(&signature::ED25519, point, &by_token(&mut key, &mut signature, text)?, signed)
        }
        "sk-ecdsa-sha2-nistp256@openssh.com" => {
            let point = point(&mut key, &P256)?;
            by_curve(&P256, point, &by_token(&mut key, &mut signature, text)?, signed)?
        }
        _ => return None,
    };
    Some(is_right && key.0.is_empty() && signature.0.is_empty())
}

fn is_by(by: &'static dyn VerificationAlgorithm, key: &[u8], text: &[u8], signature: &[u8]) -> bool {
    UnparsedPublicKey::new(by, key).verify(text, signature).is_ok()
}

// A number above 0, without the zero before its first bit (RFC 4251, 5).
fn positive<'a>(from: &mut Take<'a>) -> Option<&'a [u8]> {
    let text = from.string()?;
    let bytes = if text.first() == Some(&0) { &text[1..] } else { text };
    let is_shortest = bytes.first().map_or(false, |it| *it != 0 && (*it >= 0x80) == (bytes.len() < text.len()));
    is_shortest.then_some(bytes)
}

fn by_rsa(by: &RsaParameters, key: &mut Take<'_>, text: &[u8], signature: &[u8]) -> Option<bool> {
    let (e, n) = (positive(key)?, positive(key)?);
    // an implementation may leave zeros in front away (RFC 8332, 3)
    let mut whole = vec![0; n.len().checked_sub(signature.len())?];
    whole.extend_from_slice(signature);
    Some(RsaPublicKeyComponents { n, e }.verify(by, text, &whole).is_ok())
}

struct Curve {
    name: &'static str,
    size: usize,
    by: &'static dyn VerificationAlgorithm,
}

static P256: Curve = Curve { name: "nistp256", size: 32, by: &signature::ECDSA_P256_SHA256_FIXED };
static P384: Curve = Curve { name: "nistp384", size: 48, by: &signature::ECDSA_P384_SHA384_FIXED };

fn point<'a>(key: &mut Take<'a>, curve: &Curve) -> Option<&'a [u8]> {
    let (name, point) = (key.text()?, key.string()?);
    (name == curve.name).then_some(point)
}

fn by_curve(curve: &Curve, point: &[u8], text: &[u8], signature: &[u8]) -> Option<bool> {
    let mut numbers = Take(signature);
    let (r, s) = (positive(&mut numbers)?, positive(&mut numbers)?);
    let mut fixed = vec![0; 2 * curve.size];
    fixed[curve.size.checked_sub(r.len())?..curve.size].copy_from_slice(r);
    fixed[(2 * curve.size).checked_sub(s.len()).filter(|it| *it >= curve.size)?..].copy_from_slice(s);
    Some(numbers.0.is_empty() && is_by(curve.by, point, text, &fixed))
}

// What a security key signs: the hash of its application, flags, a counter, and the hash of the text.
fn by_token(key: &mut Take<'_>, signature: &mut Take<'_>, text: &[u8]) -> Option<Vec<u8>> {
    let application = key.string()?;
    let (&flags, rest) = signature.0.split_first()?;
    signature.0 = rest;
    let counter = signature.number()?;
    let mut signed = digest(&SHA256, application).as_ref().to_vec();
    signed.push(flags);
    signed.extend_from_slice(&counter.to_be_bytes());
    signed.extend_from_slice(digest(&SHA256, text).as_ref());
    (flags & PRESENT != 0).then_some(signed)
}

#[cfg(test)]
mod tests {
    use super::*;
    use divrelca::wire::Put;
    use ring::rand::SystemRandom;
    use ring::signature::{EcdsaKeyPair, Ed25519KeyPair, KeyPair};

    const TEXT: &[u8] = b"what is signed";

    // A number as the wire has it.
    fn number(bytes: &[u8]) -> Vec<u8> {
        let bytes = &bytes[bytes.iter().position(|it| *it != 0).unwrap()..];
        if bytes[0] >= 0x80 {
            [&[0], bytes].concat()
        } else {
            bytes.to_vec()
        }
    }

    // Right of this text alone, by this key, under this name, and in no other form.
    fn judges(algorithm: &str, key: &[u8], signature: &[u8]) {
        assert!(verify(algorithm, key, TEXT, signature), "{algorithm}");
        assert!(!verify(algorithm, key, b"another text", signature));
        assert!(!verify("ssh-dss", key, TEXT, signature));
        for at in 0..signature.len() {
            assert!(!verify(algorithm, key, TEXT, &signature[..at]), "{algorithm}, {at} bytes");
            let mut changed = signature.to_vec();
            changed[at] ^= 1;
            assert!(!verify(algorithm, key, TEXT, &changed), "{algorithm}, byte {at}");
        }
        for at in 0..key.len() {
            assert!(!verify(algorithm, &key[..at], TEXT, signature), "{algorithm}, {at} bytes of the key");
        }
        assert!(!verify(algorithm, &[key, b"\0"].concat(), TEXT, signature));
        assert!(!verify(algorithm, key, TEXT, &[signature, b"\0"].concat()));
    }

    fn curve_pair() -> EcdsaKeyPair {
        let by = &signature::ECDSA_P256_SHA256_FIXED_SIGNING;
        let pkcs8 = EcdsaKeyPair::generate_pkcs8(by, &SystemRandom::new()).unwrap();
        EcdsaKeyPair::from_pkcs8(by, pkcs8.as_ref()).unwrap()
    }

    fn by_pair(pair: &EcdsaKeyPair, text: &[u8]) -> Vec<u8> {
        let fixed = pair.sign(&SystemRandom::new(), text).unwrap();
        Put::new().string(number(&fixed.as_ref()[..32])).string(number(&fixed.as_ref()[32..])).done()
    }

    #[test]
    fn curves() {
        let (pair, name) = (curve_pair(), "ecdsa-sha2-nistp256");
        for _ in 0..20 {
            let key = Put::new().string(name).string("nistp256").string(pair.public_key()).done();
            judges(name, &key, &Put::new().string(name).string(by_pair(&pair, TEXT)).done());
        }
    }

    #[test]
    fn security_keys() {
        let of_text = |flags: u8| {
            let parts = [digest(&SHA256, b"ssh:").as_ref(), &[flags, 0, 0, 0, 7], digest(&SHA256, TEXT).as_ref()].concat();
            (parts, [flags, 0, 0, 0, 7])
        };
        let (of_curve, of_edwards) = (curve_pair(), Ed25519KeyPair::from_seed_unchecked(&[7; 32]).unwrap());
        for flags in [1, 5, 0, 4] {
            let (signed, rest) = of_text(flags);
            let name = "sk-ecdsa-sha2-nistp256@openssh.com";
            let key = Put::new().string(name).string("nistp256").string(of_curve.public_key()).string("ssh:").done();
            let shown = [Put::new().string(name).string(by_pair(&of_curve, &signed)).done(), rest.to_vec()].concat();
            assert_eq!(verify(name, &key, TEXT, &shown), flags & 1 == 1);
            let name = "sk-ssh-ed25519@openssh.com";
            let edwards = Put::new().string(name).string(of_edwards.public_key()).string("ssh:").done();
            let by_edwards = [Put::new().string(name).string(of_edwards.sign(&signed)).done(), rest.to_vec()].concat();
            assert_eq!(verify(name, &edwards, TEXT, &by_edwards), flags & 1 == 1);
            if flags & 1 == 1 {
                judges("sk-ecdsa-sha2-nistp256@openssh.com", &key, &shown);
                judges(name, &edwards, &by_edwards);
            }
        }
    }

    #[test]
    fn edwards() {
        let pair = Ed25519KeyPair::from_seed_unchecked(&[8; 32]).unwrap();
        let key = Put::new().string("ssh-ed25519").string(pair.public_key()).done();
        judges("ssh-ed25519", &key, &Put::new().string("ssh-ed25519").string(pair.sign(TEXT)).done());
    }
}
