//! The reply to the handshake.

use crate::calls::{self, Told};
use crate::{told, DeviceFeatures, DeviceInformation, Joined, Limit, Refused, Room};

/// What a device answers with: a speaker disconnects if its first two questions, commands 20 and 28, get no success.
#[derive(Clone, Copy, Debug, PartialEq, Eq)]
pub struct Device<'a> {
    /// The answer to command 20.
    pub information: DeviceInformation<'a>,
    /// The answer to command 28.
    pub features: DeviceFeatures,
    /// The response's member number of the information, from Amazon's schema, 2 to 536,870,911.
    pub information_member: u32,
    /// .. and of the features.
    pub features_member: u32,
}

impl Device<'_> {
    /// Writes the reply to a finished control message: device information for command 20, device features for 28, a bare
    /// success for 94 and 95, "unsupported" for any other. It stands in the output as its packets, joined, on the control
    /// stream, with this id and first sequence, 0 to 15, and asks for no ACK; there are none for a message that is itself a
    /// response. [`reply_size`](crate::sizes::reply_size) bytes are enough at every room.
    ///
    /// Only what the reply carries is judged. Refused by 30 to 34 (the message's own), 15 (also a reply above the limit),
    /// 14, the first that holds in this order.
    ///
    /// ```
    /// use pitokaenge::{
    ///     sizes, Device, DeviceFeatures, DeviceInformation, Limit, Refusal, Room, UpToEight,
    /// };
    ///
    /// let device = Device {
    ///     information: DeviceInformation {
    ///         serial_number: "S",
    ///         name: "N",
    ///         device_type: "T",
    ///         transports: UpToEight::new(&[0])?,
    ///     },
    ///     features: DeviceFeatures { features: 0x13, device_attributes: 0 },
    ///     information_member: 3,
    ///     features_member: 28,
    /// };
    /// let mut output = [0; sizes::reply_size(1, 1, 1)];
    /// let limit = Limit::of::<4096>();
    /// let mut packets = device.reply(b"\x08\x14", Room::LEAST, limit, 1, 2, &mut output)?;
    /// assert_eq!(packets.next(), Some(&b"\x01\x20\x00\x00\x12\x0E\x08\x14\x4A\x0E\x1A\x0C\x0A\x01S\x12\x01N\x1A\x01"[..]));
    /// assert_eq!(packets.next(), Some(&b"\x01\x38\x04\x00\x22\x01T"[..]));
    /// assert_eq!(packets.next(), None);
    ///
    /// let mut none = device.reply(b"\x08\x14\x4A\x00", Room::LEAST, limit, 1, 2, &mut output)?;
    /// assert_eq!(none.next(), None);
    /// # Ok::<(), Refusal>(())
    /// ```
    pub fn reply<'o>(
        &self,
        message: &[u8],
        room: Room,
        limit: Limit,
        id: u8,
        sequence: u8,
        output: &'o mut [u8],
    ) -> Result<Joined<'o>, Refused> {
        let told = calls::pito_reply_write(
            message,
            self.information.serial_number.as_bytes(),
            self.information.name.as_bytes(),
            self.information.device_type.as_bytes(),
            &self.information.transport_numbers(),
            self.features.features,
            self.features.device_attributes,
            self.information_member.into(),
            self.features_member.into(),
            room.get() as u64,
            limit.get() as u64,
            id.into(),
            sequence.into(),
            output,
        );
        match told {
            Ok(row) => Ok(Joined(told::written(output, row.written)?)),
            Err(Told { refusal, row }) => Err(Refused::of_text(refusal, row.field, row.place)),
        }
    }
}
