use std::fmt;
use std::net::{IpAddr, Ipv4Addr, Ipv6Addr};
use std::str::FromStr;

/// The addresses that begin with the same bits: `10.0.0.0/8`.
///
/// Networks of IPv4 come before those of IPv6; then they go by their first addresses, and of two with one first address
/// the shorter comes first. It is made of a text by `parse()` or `try_into()`, and of an address, as a network of all its
/// bits, by `into()`: of an `IpAddr`, `Ipv4Addr` or `Ipv6Addr`, or of its bytes.
///
/// ```
/// use verified_art::Network;
///
/// let ten: Network = "10.0.0.0/8".parse().unwrap();
/// assert!(ten.contains("10.1.2.3".parse().unwrap()) && ten.length() == 8);
/// assert_eq!(Network::from([10, 0, 0, 1]).to_string(), "10.0.0.1/32");
/// assert!(Network::new([10, 0, 0, 1], 8).is_err());
/// assert_eq!(Network::truncated([10, 0, 0, 1], 8), Ok(ten));
/// ```
#[derive(Clone, Copy, Debug, PartialEq, Eq, PartialOrd, Ord, Hash)]
pub struct Network {
    // INVARIANT: the length is at most the bits of the address, and no bit behind it is set.
    address: IpAddr,
    length: u8,
}

/// An address and a length that are no network, or a text that is none.
#[derive(Clone, Copy, Debug, PartialEq, Eq)]
pub enum BadNetwork {
    /// The length is above the bits of the address: 32 of IPv4, 128 of IPv6.
    LengthTooGreat,
    /// A bit of the address is set behind the length.
    BitsBehindLength,
    /// The text is not an address, alone or with a `/` and a length.
    NotANetwork,
}

impl fmt::Display for BadNetwork {
    fn fmt(&self, out: &mut fmt::Formatter<'_>) -> fmt::Result {
        out.write_str(match self {
            BadNetwork::LengthTooGreat => "the length is above the bits of the address",
            BadNetwork::BitsBehindLength => "a bit of the address is set behind the length",
            BadNetwork::NotANetwork => "the text is no network",
        })
    }
}

impl std::error::Error for BadNetwork {}

/// How many bits an address of this family has.
fn bits(address: &IpAddr) -> u8 {
    match address {
        IpAddr::V4(_) => 32,
        IpAddr::V6(_) => 128,
    }
}

/// The address without the bits behind its first ones.
fn begun(address: IpAddr, length: u8) -> IpAddr {
    match address {
        IpAddr::V4(ip) => {
            IpAddr::V4(Ipv4Addr::from_bits(ip.to_bits() & !u32::MAX.checked_shr(length.into()).unwrap_or(0)))
        }
        IpAddr::V6(ip) => {
            IpAddr::V6(Ipv6Addr::from_bits(ip.to_bits() & !u128::MAX.checked_shr(length.into()).unwrap_or(0)))
        }
    }
}

impl Network {
    /// The network of this first address and this length.
    pub fn new(address: impl Into<IpAddr>, length: u8) -> Result<Self, BadNetwork> {
        let address = address.into();
        let network = Self::truncated(address, length)?;
        if network.address == address {
            Ok(network)
        } else {
            Err(BadNetwork::BitsBehindLength)
        }
    }

    /// The network of the first bits of an address, so many of them.
    pub fn truncated(address: impl Into<IpAddr>, length: u8) -> Result<Self, BadNetwork> {
        let address = address.into();
        if length > bits(&address) {
            return Err(BadNetwork::LengthTooGreat);
        }
        Ok(Network { address: begun(address, length), length })
    }

    /// The first address.
    pub fn address(&self) -> IpAddr {
        self.address
    }

    /// How many bits its addresses begin with alike.
    pub fn length(&self) -> u8 {
        self.length
    }

    /// Whether an address is in it. IPv4 and IPv6 never match each other.
    pub fn contains(&self, address: IpAddr) -> bool {
        self.covers(&address.into())
    }

    /// Whether another network is this one or a part of it.
    pub fn covers(&self, other: &Network) -> bool {
        self.length <= other.length && begun(other.address, self.length) == self.address
    }

    /// The network as the library takes it.
    pub(crate) fn octets(&self) -> ([u8; 16], usize) {
        let mut octets = [0; 16];
        match self.address {
            IpAddr::V4(ip) => octets[..4].copy_from_slice(&ip.octets()),
            IpAddr::V6(ip) => octets = ip.octets(),
        }
        (octets, usize::from(bits(&self.address) / 8))
    }

    /// The network that the library wrote.
    pub(crate) fn of_octets(octets: &[u8; 16], width: usize, length: u8) -> Self {
        let address =
            if width == 4 { IpAddr::from([octets[0], octets[1], octets[2], octets[3]]) } else { IpAddr::from(*octets) };
        Network { address, length }
    }

    /// The last address, as a network of all its bits.
    pub(crate) fn last(&self) -> Self {
        let behind = u32::from(self.length);
        match self.address {
            IpAddr::V4(ip) => Ipv4Addr::from_bits(ip.to_bits() | u32::MAX.checked_shr(behind).unwrap_or(0)).into(),
            IpAddr::V6(ip) => Ipv6Addr::from_bits(ip.to_bits() | u128::MAX.checked_shr(behind).unwrap_or(0)).into(),
        }
    }

    /// The network of the first bits of this one, of which it has as many.
    pub(crate) fn around(&self, length: u8) -> Self {
        Network { address: begun(self.address, length), length }
    }
}

// One by one: with an impl for all that is `Into<IpAddr>`, none of `TryFrom<&str>` could stand beside it.
macro_rules! from_addresses {
    ($($address:ty),*) => {
        $(impl From<$address> for Network {
            fn from(address: $address) -> Self {
                let address = IpAddr::from(address);
                Network { address, length: bits(&address) }
            }
        })*
    };
}

from_addresses!(IpAddr, Ipv4Addr, Ipv6Addr, [u8; 4], [u8; 16], [u16; 8]);

impl fmt::Display for Network {
    fn fmt(&self, out: &mut fmt::Formatter<'_>) -> fmt::Result {
        write!(out, "{}/{}", self.address, self.length)
    }
}

impl TryFrom<&str> for Network {
    type Error = BadNetwork;

    fn try_from(text: &str) -> Result<Self, BadNetwork> {
        text.parse()
    }
}

impl FromStr for Network {
    type Err = BadNetwork;

    /// An address, or an address, a `/` and a length.
    fn from_str(text: &str) -> Result<Self, BadNetwork> {
        let (address, length) = match text.split_once('/') {
            Some((address, length)) => (address, Some(length)),
            None => (text, None),
        };
        let address: IpAddr = address.parse().map_err(|_| BadNetwork::NotANetwork)?;
        match length {
            Some(length) if (1..=3).contains(&length.len()) && length.bytes().all(|it| it.is_ascii_digit()) => {
                Network::new(address, length.parse().map_err(|_| BadNetwork::LengthTooGreat)?)
            }
            Some(_) => Err(BadNetwork::NotANetwork),
            None => Ok(address.into()),
        }
    }
}
