//! The image: an offset-encoded trie, built afresh from a list and read-only.

use crate::calls::{self, Reply};
use crate::list::RouteList;
use crate::refusal::Refusal;
use crate::route::Found;
use std::net::Ipv4Addr;

/// Words of a node: bitmap, offset.
const NODE_WORDS: usize = 2;

/// Address bits that a lookup takes at each node.
#[derive(Clone, Copy, PartialEq, Eq, Debug)]
pub enum Stride {
    /// One bit: two slots a node, at most 32 nodes read.
    One = 1,
    /// Two bits: four slots a node, at most 16 nodes read.
    Two = 2,
    /// Four bits: sixteen slots a node, at most 8 nodes read.
    Four = 4,
}

impl TryFrom<u32> for Stride {
    type Error = Refusal;

    /// The stride of that many bits.
    ///
    /// # Errors
    ///
    /// - 12, [`Refusal::WrongStride`]: the number is not 1, 2 or 4.
    fn try_from(bits: u32) -> Result<Stride, Refusal> {
        match bits {
            1 => Ok(Stride::One),
            2 => Ok(Stride::Two),
            4 => Ok(Stride::Four),
            _ => Err(Refusal::WrongStride),
        }
    }
}

/// The image of a list.
///
/// ```
/// use maftehon::{Image, RouteList, Stride};
/// use std::net::Ipv4Addr;
///
/// let list = RouteList::from_routes(&["10.0.0.0/8 7".parse()?])?;
/// let image = Image::build(&list, Stride::Four);
/// let found = image.lookup(Ipv4Addr::new(10, 1, 2, 3));
/// assert_eq!((found.port, found.read), (Some(7), 2));
/// # Ok::<(), Box<dyn std::error::Error>>(())
/// ```
#[derive(Clone, PartialEq, Eq, Debug)]
pub struct Image {
    stride: Stride,
    nodes: Vec<u32>,
    ports: Vec<u16>,
}

impl Image {
    /// The image of a list at this stride.
    pub fn build(list: &RouteList, stride: Stride) -> Image {
        let nodes_last = nodes_last(list.len(), stride);
        let mut nodes = vec![0; nodes_last * NODE_WORDS];
        let mut ports = vec![0; ports_last(nodes_last, stride)];
        let [_, node_count, port_count] =
            calls::image_build(stride as u32, list.words(), &mut nodes, &mut ports).done();
        nodes.truncate(node_count as usize * NODE_WORDS);
        nodes.shrink_to_fit();
        ports.truncate(port_count as usize);
        ports.shrink_to_fit();
        Image { stride, nodes, ports }
    }

    /// The port of the longest match, and the nodes read.
    #[inline]
    pub fn lookup(&self, address: Ipv4Addr) -> Found {
        Found::of(self.look(address.into()).done())
    }

    /// The lookup whose stride is a constant, which is quicker than the general one.
    fn look(&self, address: u32) -> Reply<3> {
        match self.stride {
            Stride::One => calls::image_lookup_1(&self.nodes, &self.ports, address),
            Stride::Two => calls::image_lookup_2(&self.nodes, &self.ports, address),
            Stride::Four => calls::image_lookup_4(&self.nodes, &self.ports, address),
        }
    }

    /// The port of each address, all in one call; 0 where no route matches. It is for stored measurements, of which some
    /// millions are to be sorted anew.
    ///
    /// An address is the number that [`u32::from`] makes of an [`Ipv4Addr`]. The library reads the addresses where they
    /// stand, as numbers, and an `Ipv4Addr` has its octets in network order, so that a slice of these would have to be
    /// copied. A port is a bare number likewise, and is written where it stays: an `Option<u16>` takes twice the memory.
    ///
    /// ```
    /// use maftehon::{Image, RouteList, Stride};
    /// use std::net::Ipv4Addr;
    ///
    /// let list = RouteList::from_routes(&["10.0.0.0/8 7".parse()?, "10.1.0.0/16 9".parse()?])?;
    /// let image = Image::build(&list, Stride::Four);
    /// let measured = [Ipv4Addr::new(10, 1, 2, 3), Ipv4Addr::new(11, 0, 0, 0), Ipv4Addr::new(10, 2, 3, 4)];
    /// let addresses: Vec<u32> = measured.into_iter().map(u32::from).collect();
    /// assert_eq!(image.lookup_many(&addresses), [9, 0, 7]);
    /// # Ok::<(), Box<dyn std::error::Error>>(())
    /// ```
    pub fn lookup_many(&self, addresses: &[u32]) -> Vec<u16> {
        let mut ports = vec![0; addresses.len()];
        self.look_many(addresses, &mut ports).done();
        ports
    }

    /// [`Image::lookup_many`] into memory that the caller has, and can use again: the first elements of `ports`, as
    /// many as there are addresses. The rest stays as it was.
    ///
    /// ```
    /// use maftehon::{Image, Refusal, RouteList, Stride};
    ///
    /// let image = Image::build(&RouteList::from_routes(&["10.0.0.0/8 7".parse()?])?, Stride::Four);
    /// let mut ports = [1; 3];
    /// image.lookup_many_into(&[0x0A01_0203, 0x0B00_0000], &mut ports)?;
    /// assert_eq!(ports, [7, 0, 1]);
    /// assert_eq!(image.lookup_many_into(&[0; 4], &mut ports), Err(Refusal::NoRoom));
    /// # Ok::<(), Box<dyn std::error::Error>>(())
    /// ```
    ///
    /// # Errors
    ///
    /// - 9, [`Refusal::NoRoom`]: there are more addresses than `ports` has elements.
    pub fn lookup_many_into(&self, addresses: &[u32], ports: &mut [u16]) -> Result<(), Refusal> {
        self.look_many(addresses, ports).of_whole()?;
        Ok(())
    }

    /// A built image has no lookup that answers 11, so none of the elements is 65,535.
    fn look_many(&self, addresses: &[u32], out: &mut [u16]) -> Reply<2> {
        calls::image_lookup_many(self.stride as u32, &self.nodes, &self.ports, addresses, out)
    }

    /// How many nodes it has.
    pub fn node_count(&self) -> usize {
        self.nodes.len() / NODE_WORDS
    }

    /// How many ports it has, one a leaf.
    pub fn port_count(&self) -> usize {
        self.ports.len()
    }
}

/// A route of 32 bits is longer than the bits of 32/s - 1 nodes below the root, and no route of more.
fn nodes_last(routes: usize, stride: Stride) -> usize {
    1 + routes * (32 / stride as usize - 1)
}

/// Every node has 2^s slots; each node but the root fills one, and the others are leaves.
fn ports_last(nodes: usize, stride: Stride) -> usize {
    nodes * (1 << stride as usize) - (nodes - 1)
}
