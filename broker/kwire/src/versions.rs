//! ApiVersions: which requests a broker answers, at which versions.

use crate::message::wire;
use crate::{APIS, Api};

wire! {
    /// ApiVersions: asks which requests the broker knows. Most clients send it first.
    ///
    /// A broker that doesn't know the version answers at version 0 with error 35 and its table (KIP-511): it doesn't read the request,
    /// and sends [`ApiVersionsResponse::of_table`] with that error.
    struct ApiVersionsRequest<'a>: Request of API_VERSIONS {
        /// Name of the client's library.
        client_software_name: &'a str, 3..;
        /// Version of the client's library.
        client_software_version: &'a str, 3..;
    }

    /// Answers [`ApiVersionsRequest`]. Its header is of version 0 at every version.
    struct ApiVersionsResponse: Response of API_VERSIONS {
        /// An error's number, or 0.
        error_code: i16, 0..;
        /// The requests that the broker knows.
        api_keys: Vec<ApiRange>, 0..;
        /// For how many milliseconds the client was held back.
        throttle_time_ms: i32, 1..;
    }

    /// A request that the broker knows.
    struct ApiRange {
        /// Its key.
        api_key: i16, 0..;
        /// Its least version.
        min_version: i16, 0..;
        /// Its greatest version.
        max_version: i16, 0..;
    }
}

impl ApiVersionsResponse {
    /// The answer of a broker that knows all of [`APIS`].
    #[must_use]
    pub fn of_table() -> Self {
        ApiVersionsResponse { error_code: 0, api_keys: APIS.iter().map(ApiRange::from).collect(), throttle_time_ms: 0 }
    }
}

impl From<&Api> for ApiRange {
    fn from(api: &Api) -> Self {
        ApiRange { api_key: api.key, min_version: api.least, max_version: api.greatest }
    }
}
