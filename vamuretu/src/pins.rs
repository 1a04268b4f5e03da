//! The keys of connections: a node or a watcher has one, and others know its pin.
//!
//! A file has a key of Ed25519 in PKCS 8, and a certificate, both in PEM and in the form of RFC 8410. TLS carries public keys in
//! certificates alone. All of this certificate is constant but the public key and the key's own signature, so it is a function
//! of the key, and its SHA-256, the pin, commits to the key. Names, dates and extensions stand there for other programs.

use std::fmt;
use std::fs;
use std::path::Path;
use std::sync::Arc;
use std::time::SystemTime;

use ring::rand::{SecureRandom, SystemRandom};
use ring::signature::{Ed25519KeyPair, KeyPair};
use rustls::client::{
    HandshakeSignatureValid, NoClientSessionStorage, ResolvesClientCert, ServerCertVerified, ServerCertVerifier,
};
use rustls::server::{ClientCertVerified, ClientCertVerifier, ClientHello, NoServerSessionStorage, ResolvesServerCert};
use rustls::sign::{any_eddsa_type, CertifiedKey};
use rustls::version::TLS13;
use rustls::{
    Certificate, ClientConfig, DigitallySignedStruct, DistinguishedNames, Error, PrivateKey, ServerConfig, ServerName,
    SignatureScheme,
};
use rustls_pemfile::Item;
use serde::{Deserialize, Deserializer};
use sha2::{Digest, Sha256};
use tokio_rustls::{TlsAcceptor, TlsConnector};

use crate::{disk, End};

/// What stands before the 32 bytes of a private key in PKCS 8.
const KEY: [u8; 16] = *b"\x30\x2e\x02\x01\x00\x30\x05\x06\x03\x2b\x65\x70\x04\x22\x04\x20";
/// The parts of the signed bytes of a certificate: version 3, number 1 and Ed25519; the name `vamuretu`, which stands there as
/// issuer and as subject; from 1970 to the end of 9999; what stands before the public key; no authority.
const FRONT: &[u8] = b"\x30\x81\x99\xa0\x03\x02\x01\x02\x02\x01\x01\x30\x05\x06\x03\x2b\x65\x70";
const NAME: &[u8] = b"\x30\x13\x31\x11\x30\x0f\x06\x03\x55\x04\x03\x0c\x08vamuretu";
const DATES: &[u8] = b"\x30\x20\x17\x0d700101000000Z\x18\x0f99991231235959Z";
const PUBLIC: &[u8] = b"\x30\x2a\x30\x05\x06\x03\x2b\x65\x70\x03\x21\x00";
const EXTENSIONS: &[u8] = b"\xa3\x10\x30\x0e\x30\x0c\x06\x03\x55\x1d\x13\x01\x01\xff\x04\x02\x30\x00";
/// What stands before the signed bytes of a certificate, and before its signature.
const WHOLE: &[u8] = b"\x30\x81\xe6";
const SIGNATURE: &[u8] = b"\x30\x05\x06\x03\x2b\x65\x70\x03\x41\x00";

/// The SHA-256 of a certificate, by which others know its key.
#[derive(Clone, Copy, PartialEq, Eq, PartialOrd, Ord, Hash)]
pub struct Pin([u8; 32]);

impl Pin {
    pub fn of(certificate: &Certificate) -> Pin {
        Pin(Sha256::digest(&certificate.0).into())
    }
}

impl fmt::Display for Pin {
    fn fmt(&self, to: &mut fmt::Formatter<'_>) -> fmt::Result {
        to.write_str(&hex::encode(self.0))
    }
}

impl fmt::Debug for Pin {
    fn fmt(&self, to: &mut fmt::Formatter<'_>) -> fmt::Result {
        fmt::Display::fmt(self, to)
    }
}

impl<'de> Deserialize<'de> for Pin {
    fn deserialize<D: Deserializer<'de>>(from: D) -> Result<Pin, D::Error> {
        crate::config::digits(from).map(Pin)
    }
}

/// The key of this end, and its certificate.
pub struct Own(Arc<CertifiedKey>);

impl Own {
    /// The key of these bytes in PKCS 8, which its certificate has to be of, if there is one.
    fn of(document: Vec<u8>, certificate: Option<&[u8]>) -> Option<Own> {
        let pair = Ed25519KeyPair::from_pkcs8_maybe_unchecked(&document).ok()?;
        let made = certificate_of(&pair);
        let key = any_eddsa_type(&PrivateKey(document)).ok()?;
        certificate.map_or(true, |it| it == made.0).then(|| Own(Arc::new(CertifiedKey::new(vec![made], key))))
    }

    /// Reads the file of a key.
    pub fn read(path: &Path) -> Result<Own, End> {
        let text = fs::read(path).map_err(End::file(path))?;
        let items = rustls_pemfile::read_all(&mut &text[..]).map_err(|told| End::fault(path, told))?;
        let own = match &items[..] {
            [Item::PKCS8Key(key), Item::X509Certificate(certificate)] => Own::of(key.clone(), Some(certificate)),
            _ => None,
        };
        own.ok_or_else(|| End::fault(path, "not a key as `vamuretu key` makes it"))
    }

    /// What connects to an end that has the key of one of these pins. No session is resumed, so each connection shows the keys.
    pub fn connector(self: &Arc<Own>, pins: &[Pin]) -> Result<TlsConnector, Error> {
        let made = ClientConfig::builder().with_safe_default_cipher_suites().with_safe_default_kx_groups();
        let made = made.with_protocol_versions(&[&TLS13])?;
        let pinned = Arc::new(Pinned(pins.to_vec()));
        let mut made = made.with_custom_certificate_verifier(pinned).with_client_cert_resolver(self.clone());
        made.session_storage = Arc::new(NoClientSessionStorage {});
        Ok(Arc::new(made).into())
    }

    /// What takes connections of ends that have keys of these pins.
    pub fn acceptor(self: &Arc<Own>, pins: Vec<Pin>) -> Result<TlsAcceptor, Error> {
        let made = ServerConfig::builder().with_safe_default_cipher_suites().with_safe_default_kx_groups();
        let made = made.with_protocol_versions(&[&TLS13])?;
        let mut made = made.with_client_cert_verifier(Arc::new(Pinned(pins))).with_cert_resolver(self.clone());
        made.session_storage = Arc::new(NoServerSessionStorage {});
        Ok(Arc::new(made).into())
    }

    /// By what others know this key.
    pub fn pin(&self) -> Pin {
        Pin::of(&self.0.cert[0])
    }
}

/// The certificate of a key.
fn certificate_of(pair: &Ed25519KeyPair) -> Certificate {
    let signed = [FRONT, NAME, DATES, NAME, PUBLIC, pair.public_key().as_ref(), EXTENSIONS].concat();
    Certificate([WHOLE, &signed, SIGNATURE, pair.sign(&signed).as_ref()].concat())
}

/// A part of a file in PEM.
fn pem(label: &str, bytes: &[u8]) -> String {
    let text = base64::encode(bytes);
    let lines = text.as_bytes().chunks(64).map(|line| String::from_utf8_lossy(line) + "\n");
    format!("-----BEGIN {label}-----\n{}-----END {label}-----\n", lines.collect::<String>())
}

/// The text of a file with a new key.
pub fn new_file() -> Result<String, End> {
    let mut secret = [0; 32];
    SystemRandom::new().fill(&mut secret).map_err(|_| End::failed("the system has no random bytes"))?;
    let document = [&KEY[..], &secret].concat();
    let own = Own::of(document.clone(), None).ok_or_else(|| End::failed("a key that is none"))?;
    Ok(pem("PRIVATE KEY", &document) + &pem("CERTIFICATE", &own.0.cert[0].0))
}

/// The command `key`: makes the file of a key where there is none, and tells its pin.
pub fn make(path: &Path) -> Result<(), End> {
    disk::create(path, 0o600, new_file()?.as_bytes()).map_err(End::file(path))?;
    crate::write(&format!("{}\n", Own::read(path)?.pin()))
}

impl ResolvesServerCert for Own {
    fn resolve(&self, _: ClientHello) -> Option<Arc<CertifiedKey>> {
        Some(self.0.clone())
    }
}

impl ResolvesClientCert for Own {
    fn resolve(&self, _: &[&[u8]], _: &[SignatureScheme]) -> Option<Arc<CertifiedKey>> {
        Some(self.0.clone())
    }

    fn has_certs(&self) -> bool {
        true
    }
}

/// The pins that the other end of a connection may have. The pin is compared before anything else of what the other end has
/// shown is read; then the library verifies its signature of the handshake by the key in the certificate.
struct Pinned(Vec<Pin>);

impl Pinned {
    fn look(&self, shown: &Certificate, further: &[Certificate]) -> Result<(), Error> {
        if !self.0.contains(&Pin::of(shown)) {
            return Err(Error::InvalidCertificateData(format!("no end that is named has the key {}", Pin::of(shown))));
        }
        match further.is_empty() {
            true => Ok(()),
            false => Err(Error::InvalidCertificateData("more than one certificate".into())),
        }
    }
}

/// A signature by another version of TLS than 1.3, of which there is none.
fn no_signature() -> Result<HandshakeSignatureValid, Error> {
    Err(Error::General("a version of TLS that is not 1.3".into()))
}

impl ServerCertVerifier for Pinned {
    fn verify_server_cert(
        &self,
        shown: &Certificate,
        further: &[Certificate],
        _: &ServerName,
        _: &mut dyn Iterator<Item = &[u8]>,
        _: &[u8],
        _: SystemTime,
    ) -> Result<ServerCertVerified, Error> {
        self.look(shown, further).map(|()| ServerCertVerified::assertion())
    }

    fn verify_tls12_signature(
        &self,
        _: &[u8],
        _: &Certificate,
        _: &DigitallySignedStruct,
    ) -> Result<HandshakeSignatureValid, Error> {
        no_signature()
    }

    fn supported_verify_schemes(&self) -> Vec<SignatureScheme> {
        vec![SignatureScheme::ED25519]
    }

    fn request_scts(&self) -> bool {
        false
    }
}

impl ClientCertVerifier for Pinned {
    fn client_auth_root_subjects(&self) -> Option<DistinguishedNames> {
        Some(vec![])
    }

    fn verify_client_cert(
        &self,
        shown: &Certificate,
        further: &[Certificate],
        _: SystemTime,
    ) -> Result<ClientCertVerified, Error> {
        self.look(shown, further).map(|()| ClientCertVerified::assertion())
    }

    fn verify_tls12_signature(
        &self,
        _: &[u8],
        _: &Certificate,
        _: &DigitallySignedStruct,
    ) -> Result<HandshakeSignatureValid, Error> {
        no_signature()
    }

    fn supported_verify_schemes(&self) -> Vec<SignatureScheme> {
        vec![SignatureScheme::ED25519]
    }
}

#[cfg(test)]
pub mod tests {
    use super::*;

    /// A new key.
    pub fn new_own() -> Arc<Own> {
        let text = new_file().expect("a key");
        let items = rustls_pemfile::read_all(&mut text.as_bytes()).expect("PEM");
        let [Item::PKCS8Key(key), Item::X509Certificate(certificate)] = &items[..] else { panic!("{items:?}") };
        Arc::new(Own::of(key.clone(), Some(certificate)).expect("a key"))
    }

    #[test]
    fn a_key_is_made_once_and_read() {
        let path = std::env::temp_dir().join(format!("vamuretu.{}.key", std::process::id()));
        make(&path).expect("made");
        let text = fs::read_to_string(&path).expect("a file");
        make(&path).expect("told");
        assert_eq!(fs::read_to_string(&path).expect("a file"), text, "a key is never made anew");
        let pin = Own::read(&path).expect("a key").pin();
        assert!(pin.to_string().len() == 64 && pin != new_own().pin());
        let (key, certificate) = text.split_at(text.find("-----BEGIN CERT").expect("two parts"));
        let other = new_file().expect("a key");
        let strange = &other[other.find("-----BEGIN CERT").expect("two parts")..];
        let wrong = [key, certificate, "", "-----BEGIN", &format!("{key}{strange}"), &format!("{text}{certificate}")];
        for text in wrong {
            fs::write(&path, text).expect("written");
            assert_eq!(Own::read(&path).err().map(|end| end.status), Some(3), "{text}");
        }
        fs::remove_file(&path).expect("taken away");
    }

    #[test]
    fn a_pin_is_compared_before_anything_is_read() {
        let (one, two) = (new_own(), new_own());
        let (first, second) = (&one.0.cert[0], &two.0.cert[0]);
        let pinned = Pinned(vec![one.pin()]);
        assert!(pinned.look(first, &[]).is_ok() && pinned.look(second, &[]).is_err());
        assert!(pinned.look(&Certificate(vec![0; 40_000]), &[]).is_err());
        // A certificate behind it is refused, whatever it is.
        for further in [first.clone(), second.clone(), Certificate(vec![0x30; 100])] {
            assert!(pinned.look(first, &[further]).is_err());
        }
        // An end that gets another key has two.
        let both = Pinned(vec![one.pin(), two.pin()]);
        assert!(both.look(first, &[]).is_ok() && both.look(second, &[]).is_ok());
        assert!(both.look(&new_own().0.cert[0], &[]).is_err());
    }
}
