"""Which resource is stored at a place below an API server's prefix. A key doesn't tell the group of a built-in resource; the
API server's own tables do, and this one is written after them."""

from dataclasses import dataclass

from reference.words import is_resource

from .keys import KeyRange, below, prefixed, without_nested

# The built-in resources that are stored below their own name, by their groups.
REGULAR = {
    "": "configmaps events limitranges namespaces persistentvolumeclaims persistentvolumes pods podtemplates resourcequotas "
    "secrets serviceaccounts",
    "admissionregistration.k8s.io": "mutatingadmissionpolicies mutatingadmissionpolicybindings "
    "mutatingwebhookconfigurations validatingadmissionpolicies validatingadmissionpolicybindings "
    "validatingwebhookconfigurations",
    "apps": "controllerrevisions daemonsets deployments replicasets statefulsets",
    "autoscaling": "horizontalpodautoscalers",
    "batch": "cronjobs jobs",
    "certificates.k8s.io": "certificatesigningrequests clustertrustbundles podcertificaterequests",
    "coordination.k8s.io": "leasecandidates leases",
    "discovery.k8s.io": "endpointslices",
    "flowcontrol.apiserver.k8s.io": "flowschemas prioritylevelconfigurations",
    "internal.apiserver.k8s.io": "storageversions",
    "networking.k8s.io": "ingressclasses ipaddresses networkpolicies servicecidrs",
    "node.k8s.io": "runtimeclasses",
    "policy": "poddisruptionbudgets",
    "rbac.authorization.k8s.io": "clusterrolebindings clusterroles rolebindings roles",
    "resource.k8s.io": "deviceclasses devicetaintrules podschedulingcontexts resourceclaimparameters resourceclaims "
    "resourceclaimtemplates resourceclasses resourceclassparameters resourceslices",
    "scheduling.k8s.io": "priorityclasses",
    "storage.k8s.io": "csidrivers csinodes csistoragecapacities storageclasses volumeattachments volumeattributesclasses",
    "storagemigration.k8s.io": "storageversionmigrations",
}

# Those that are stored elsewhere. A range of addresses or ports is sealed as `services` are. The masters' leases have a
# resource of the core group whose name no configuration can have, so wildcards alone match it.
IRREGULAR = {
    "controllers": "replicationcontrollers",
    "ingress": "ingresses.networking.k8s.io",
    "masterleases": "apiserveripinfo",
    "minions": "nodes",
    "peerserverleases": "apiserverpeeripinfo",
    "podsecuritypolicy": "podsecuritypolicies.policy",
    "ranges": "services",
    "services/endpoints": "endpoints",
    "services/specs": "services",
}


def built_in() -> dict[str, str]:
    """The table of the built-in places."""
    regular = {
        name: f"{name}.{group}" if group else name for group, names in REGULAR.items() for name in names.split()
    }
    return regular | IRREGULAR


@dataclass
class Places:
    """The places below a prefix; those that a user names go before the built-in ones."""

    base: bytes
    table: dict[str, str]

    @classmethod
    def below(cls, prefix: str, named: dict[str, str]) -> "Places":
        return cls(below(prefix), built_in() | named)

    def place_of(self, key: bytes) -> bytes:
        """The place of a key, as an unknown one is named to people: its first part, of a group's its first two."""
        parts = key[len(self.base) :].split(b"/")
        wanted = 2 if parts[0] == b"services" or b"." in parts[0] else 1
        return b"/".join(parts[:wanted])

    def resource_of(self, key: bytes) -> str | None:
        """The resource of a key below the base, or None for an unknown place."""
        # (a byte a character, since the parts behind the place may be anything)
        parts = key[len(self.base) :].decode("latin-1").split("/")
        for size in (2, 1):
            found = self.table.get("/".join(parts[:size]))
            if found is not None:
                return found
        if "." in parts[0] and len(parts) > 1:
            resource = f"{parts[1]}.{parts[0]}"
            return resource if is_resource(resource.encode()) else None
        return None

    def places_for(self, resource: str) -> list[str]:
        """The places at which a resource may be stored."""
        found = [place for place, other in self.table.items() if other == resource]
        plural, _dot, group = resource.partition(".")
        return found + ([f"{group}/{plural}"] if "." in group else [])

    def ranges(self, only: list[str]) -> list[KeyRange]:
        """The ranges of keys to be read: of all below the base, or of some resources alone."""
        if not only:
            return [prefixed(self.base)]
        places = [place for resource in only for place in self.places_for(resource)]
        return without_nested([prefixed(self.base + place.encode() + b"/") for place in places])
