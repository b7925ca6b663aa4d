//! The four diskette kinds.

pub const SECTOR: usize = 512;

/// The most clusters a kind has.
pub const MOST_CLUSTERS: usize = 354;

/// The most root entries a kind has.
pub const MOST_SLOTS: usize = 112;

/// What sets a kind apart. All else follows from these.
#[derive(Debug, PartialEq, Eq)]
pub struct Kind {
    pub byte: u8,
    pub sectors: usize,
    pub fat_sectors: usize,
    pub root_sectors: usize,
    pub sectors_per_cluster: usize,
}

const fn kind(byte: u8, sectors: usize, fat: usize, root: usize, per_cluster: usize) -> Kind {
    Kind {
        byte,
        sectors,
        fat_sectors: fat,
        root_sectors: root,
        sectors_per_cluster: per_cluster,
    }
}

pub static KINDS: [Kind; 4] = [
    kind(0xFE, 320, 1, 4, 1),
    kind(0xFF, 640, 1, 7, 2),
    kind(0xFC, 360, 2, 4, 1),
    kind(0xFD, 720, 2, 7, 2),
];

impl Kind {
    /// The kind of a kind byte, given as a whole number.
    pub fn of_number(number: u32) -> Option<&'static Kind> {
        KINDS.iter().find(|kind| u32::from(kind.byte) == number)
    }

    /// The kind that byte 512 names.
    pub fn of_system_area(area: &[u8]) -> Option<&'static Kind> {
        let byte = *area.get(SECTOR)?;
        Kind::of_number(u32::from(byte)).filter(|kind| area.len() >= kind.system_bytes())
    }

    /// The kind of a whole image: byte 512 and the length agree.
    pub fn of_image(image: &[u8]) -> Option<&'static Kind> {
        let byte = *image.get(SECTOR)?;
        Kind::of_number(u32::from(byte)).filter(|kind| image.len() == kind.image_bytes())
    }

    pub const fn image_bytes(&self) -> usize {
        self.sectors * SECTOR
    }

    pub const fn fat_bytes(&self) -> usize {
        self.fat_sectors * SECTOR
    }

    /// The byte of the image where a copy of the table begins; 0 is copy 1.
    pub const fn copy_at(&self, copy: usize) -> usize {
        SECTOR + copy * self.fat_bytes()
    }

    pub const fn root_at(&self) -> usize {
        self.copy_at(2)
    }

    pub const fn root_entries(&self) -> usize {
        self.root_sectors * SECTOR / 32
    }

    pub const fn first_data_sector(&self) -> usize {
        1 + 2 * self.fat_sectors + self.root_sectors
    }

    /// The bytes before the first data sector.
    pub const fn system_bytes(&self) -> usize {
        self.first_data_sector() * SECTOR
    }

    pub const fn cluster_bytes(&self) -> usize {
        self.sectors_per_cluster * SECTOR
    }

    pub const fn clusters(&self) -> usize {
        (self.sectors - self.first_data_sector()) / self.sectors_per_cluster
    }

    pub const fn last_cluster(&self) -> usize {
        self.clusters() + 1
    }

    /// Whether a number names a cluster: 2 to the last.
    pub const fn has_cluster(&self, number: u16) -> bool {
        2 <= number && number as usize <= self.last_cluster()
    }

    /// The sector where cluster `number`, at least 2, starts.
    pub const fn cluster_sector(&self, number: u16) -> usize {
        (number as usize - 2) * self.sectors_per_cluster + self.first_data_sector()
    }

    /// The byte of the image where cluster `number` starts.
    pub const fn cluster_at(&self, number: u16) -> usize {
        self.cluster_sector(number) * SECTOR
    }

    /// How many clusters a size needs. Cannot wrap.
    pub const fn clusters_for(&self, size: u32) -> u32 {
        size.div_ceil(self.cluster_bytes() as u32)
    }
}
