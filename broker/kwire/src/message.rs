//! Messages: requests, responses and their structures, each field with the versions that have it.

use crate::{Api, Reader, Wire, WireError, Writer};

/// A request or a response.
pub trait Message<'a>: Wire<'a> {
    /// The kind of request that it is, or answers.
    const API: Api;

    /// Reads it, behind its header. Bytes behind its last field are left: [`Reader::finish`] tells.
    ///
    /// # Errors
    /// [`WireError::BadVersion`], and what is wrong with the bytes.
    fn decode(reader: &mut Reader<'a>, version: i16) -> Result<Self, WireError> {
        Self::read(reader, Self::API.version(version)?)
    }

    /// Writes it, behind its header. A field that the version lacks is left out.
    ///
    /// # Errors
    /// [`WireError::BadVersion`], [`WireError::TooLong`], and [`WireError::Null`] where the version has none.
    fn encode(&self, writer: &mut Writer<'a>, version: i16) -> Result<(), WireError> {
        self.write(writer, Self::API.version(version)?)
    }
}

/// A message from a client to a broker.
pub trait Request<'a>: Message<'a> {}

/// A message from a broker to a client.
pub trait Response<'a>: Message<'a> {}

/// Declares structures as Kafka's message definitions do: `field: type = default, versions, null versions;`. Without a default it
/// is the type's: 0, false, empty or null. `null` names the versions at which a nullable type may be null; without it, all may.
macro_rules! wire {
    ($(
        $(#[$doc:meta])*
        struct $name:ident $(<$life:lifetime>)? $(: $kind:ident of $api:ident)? {
            $($(#[$field_doc:meta])* $field:ident: $type:ty $(= $default:expr)?, $versions:expr $(, null $null:expr)?;)*
        }
    )*) => {$(
        $(#[$doc])*
        #[derive(Clone, Debug, PartialEq, Eq)]
        pub struct $name $(<$life>)? {
            $(
                $(#[$field_doc])*
                #[doc = concat!("\n\nVersions `", stringify!($versions), "`", $(", may be null in `", stringify!($null), "`",)? ".")]
                pub $field: $type,
            )*
        }

        impl $(<$life>)? Default for $name $(<$life>)? {
            fn default() -> Self {
                Self { $($field: $crate::message::default!($($default)?),)* }
            }
        }

        impl<'a> $crate::Wire<'a> for $name $(<$life>)? {
            fn read(reader: &mut $crate::Reader<'a>, version: $crate::Version) -> Result<Self, $crate::WireError> {
                let mut out = Self::default();
                $(
                    if ($versions).contains(&version.number) {
                        let _at = reader.position();
                        out.$field = <$type as $crate::Wire>::read(reader, version)?;
                        $(
                            if out.$field.is_none() && !($null).contains(&version.number) {
                                return Err($crate::WireError::Null { at: _at });
                            }
                        )?
                    }
                )*
                reader.tagged_fields(version.flexible)?;
                Ok(out)
            }

            fn write(&self, writer: &mut $crate::Writer<'a>, version: $crate::Version) -> Result<(), $crate::WireError> {
                $(
                    if ($versions).contains(&version.number) {
                        $(
                            if self.$field.is_none() && !($null).contains(&version.number) {
                                return Err($crate::WireError::Null { at: writer.len() });
                            }
                        )?
                        $crate::Wire::write(&self.$field, writer, version)?;
                    }
                )*
                writer.tagged_fields(version.flexible);
                Ok(())
            }
        }

        $crate::message::role!(($name $(<$life>)?) $($kind $api)?);
    )*};
}

/// Makes a structure a request or a response of its API; one that is only a part of these stays as it is.
macro_rules! role {
    (($name:ty)) => {};
    (($name:ty) $kind:ident $api:ident) => {
        impl<'a> $crate::Message<'a> for $name {
            const API: $crate::Api = $crate::api::$api;
        }

        impl<'a> $crate::message::$kind<'a> for $name {}
    };
}

/// The default that was given, or else the type's.
macro_rules! default {
    () => {
        Default::default()
    };
    ($value:expr) => {
        $value
    };
}

pub(crate) use {default, role, wire};
