//! Where zones are: fields 6 and 7.

use crate::error::{decode, Error, Number};
use crate::{ffi, text};

/// A place on the map, in degrees north and east: whole seconds divided by 3600, rounded once.
#[derive(Clone, Copy, Debug, PartialEq)]
pub struct Pin {
    /// Degrees north, -90 to 90.
    pub latitude: f64,
    /// Degrees east, -180 to 180.
    pub longitude: f64,
}

/// The two fields of locations.
#[derive(Clone, Copy, Debug, PartialEq, Eq, Hash)]
pub enum LocationField {
    /// Field 6, from zone.tab: one country each.
    Zone,
    /// Field 7, from zone1970.tab: any number of countries.
    Zone1970,
}

/// A country: texts of the file.
#[derive(Clone, Copy, Debug, PartialEq, Eq, Hash)]
pub struct Country<'a> {
    /// Its name, as "Norway".
    pub name: &'a str,
    /// Its code, as "NO".
    pub code: &'a str,
}

/// A location: its texts are parts of the file.
#[derive(Clone, Debug)]
pub struct Location<'a> {
    /// Where it is.
    pub pin: Pin,
    /// The ID of its zone. The file needn't have such a zone.
    pub zone: &'a str,
    /// What tells it from others of its country; may be empty.
    pub comment: &'a str,
    /// Its countries, in file order.
    pub countries: Countries<'a>,
}

/// The countries of a location that are still to come.
#[derive(Clone, Debug)]
pub struct Countries<'a> {
    file: &'a [u8],
    view: [u64; 4],
}

impl<'a> Iterator for Countries<'a> {
    type Item = Country<'a>;

    fn next(&mut self) -> Option<Country<'a>> {
        let mut out = [0; 4];
        if !ffi::next_country(self.file, &mut self.view, &mut out) {
            return None;
        }
        let [name, name_length, code, code_length] = out;
        Some(Country { name: text(part(self.file, name, name_length)), code: text(part(self.file, code, code_length)) })
    }
}

/// Once there is no more there never is.
impl core::iter::FusedIterator for Countries<'_> {}

/// The locations of a field that are still to come.
#[derive(Clone, Debug)]
pub struct Locations<'a> {
    file: &'a [u8],
    field: LocationField,
    number: Option<u64>,
}

impl<'a> Iterator for Locations<'a> {
    type Item = Result<Location<'a>, Error>;

    /// A file that is refused gives its error once.
    fn next(&mut self) -> Option<Self::Item> {
        let number = self.number?;
        let found = location(self.file, self.field, number);
        self.number = found.is_ok().then_some(number + 1);
        match found {
            Err(Error { number: Number::NotFound, .. }) => None,
            found => Some(found),
        }
    }
}

fn part(bytes: &[u8], place: u64, length: u64) -> &[u8] {
    &bytes[place as usize..][..length as usize]
}

/// The location with a number, from 0, in a field of a whole file. The file is checked first, all of it; then
/// [`Number::NotFound`] if the field has no location with that number or the file no such field.
///
/// ```
/// use nzd::LocationField;
/// // A pool of A, B and C, and one location at 0 degrees: country A with the code B, zone C, comment A.
/// let file = b"\0\0\0\0\x00\x07\x03\x01A\x01B\x01C\x06\x07\x01\x00\x00\x00\x01\x02\x00";
/// let location = nzd::location(file, LocationField::Zone, 0)?;
/// assert_eq!((location.pin.latitude, location.zone, location.comment), (0.0, "C", "A"));
/// let countries: Vec<_> = location.countries.map(|country| (country.name, country.code)).collect();
/// assert_eq!(countries, [("A", "B")]);
/// # Ok::<(), nzd::Error>(())
/// ```
pub fn location(file: &[u8], field: LocationField, number: u64) -> Result<Location<'_>, Error> {
    located(file, field, |id, pin, out| ffi::location(file, id, number, pin, out))
}

/// What the C function, given the field's ID, says of the file's bytes.
pub(crate) fn located(
    file: &[u8],
    field: LocationField,
    ask: impl FnOnce(u64, &mut [f64; 2], &mut [u64; 8]) -> u64,
) -> Result<Location<'_>, Error> {
    let id = match field {
        LocationField::Zone => 6,
        LocationField::Zone1970 => 7,
    };
    let (mut pin, mut out) = ([0.0; 2], [0; 8]);
    decode(ask(id, &mut pin, &mut out))?;
    let [latitude, longitude] = pin;
    let [zone, zone_length, comment, comment_length, start, end, place, left] = out;
    Ok(Location {
        pin: Pin { latitude, longitude },
        zone: text(part(file, zone, zone_length)),
        comment: text(part(file, comment, comment_length)),
        countries: Countries { file, view: [start, end, place, left] },
    })
}

/// The locations of a field of a whole file, in file order; none where the file has no such field. The file is checked for each.
///
/// ```
/// use nzd::LocationField;
/// let file = b"\0\0\0\0\x00\x07\x03\x01A\x01B\x01C\x06\x07\x01\x00\x00\x00\x01\x02\x00";
/// assert_eq!(nzd::locations(file, LocationField::Zone).count(), 1);
/// assert_eq!(nzd::locations(file, LocationField::Zone1970).count(), 0);
/// ```
pub fn locations(file: &[u8], field: LocationField) -> Locations<'_> {
    Locations { file, field, number: Some(0) }
}
