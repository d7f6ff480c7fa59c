"""Every place of the bridges' table as an API server has it: an object of each resource, each resource under a key of its own."""
import base64
import json
import sys
from dataclasses import dataclass, field
from pathlib import Path

from api_server_steps import Bench, Steps, configuration, who
from api_servers import NAMESPACE, ApiServer, Cluster
from etcd_server import kmsrest
from support import TOP

sys.path[:0] = [str(TOP), str(TOP / "bridges")]
from etcd_bridge.places import Places  # noqa: E402 (its folder is known only now)

LABELS = {"matchLabels": {"a": "b"}}
POD = {"metadata": {"labels": {"a": "b"}}, "spec": {"containers": [{"name": "c", "image": "i"}]}}
JOB_POD = {"spec": {**POD["spec"], "restartPolicy": "Never"}}
HOOK = {"name": "a.b.c", "clientConfig": {"url": "https://127.0.0.1/x"}, "sideEffects": "None", "admissionReviewVersions": ["v1"]}
REQUEST = "-----BEGIN CERTIFICATE REQUEST-----"


@dataclass(frozen=True)
class Made:
    """A resource, the version of its API, its kind, and what an object of it needs besides a name."""

    resource: str
    version: str
    kind: str
    body: dict
    is_namespaced: bool = True

    @property
    def url(self) -> str:
        name, _dot, group = self.resource.partition(".")
        base = f"/apis/{group}/{self.version}" if group else f"/api/{self.version}"
        return f"{base}/namespaces/{NAMESPACE}/{name}" if self.is_namespaced else f"{base}/{name}"

    def object(self) -> dict:
        group = self.resource.partition(".")[2]
        version = f"{group}/{self.version}" if group else self.version
        metadata = {**self.body.get("metadata", {}), "name": "made"}
        return {"apiVersion": version, "kind": self.kind, **self.body, "metadata": metadata}


def workload(**more: object) -> dict:
    return {"spec": {"selector": LABELS, "template": POD, **more}}


NAMESPACED = (
    Made("configmaps", "v1", "ConfigMap", {}),
    Made("endpoints", "v1", "Endpoints", {}),
    Made("events", "v1", "Event", {"involvedObject": {"namespace": NAMESPACE}}),
    Made("limitranges", "v1", "LimitRange", {"spec": {"limits": []}}),
    Made("persistentvolumeclaims", "v1", "PersistentVolumeClaim", {"spec": {"accessModes": ["ReadWriteOnce"], "resources": {"requests": {"storage": "1Gi"}}}}),
    Made("pods", "v1", "Pod", POD),
    Made("podtemplates", "v1", "PodTemplate", {"template": POD}),
    Made("replicationcontrollers", "v1", "ReplicationController", {"spec": {"selector": {"a": "b"}, "template": POD}}),
    Made("resourcequotas", "v1", "ResourceQuota", {"spec": {}}),
    Made("secrets", "v1", "Secret", {}),
    Made("serviceaccounts", "v1", "ServiceAccount", {}),
    Made("services", "v1", "Service", {"spec": {"ports": [{"port": 80}]}}),
    Made("controllerrevisions.apps", "v1", "ControllerRevision", {"revision": 1, "data": {"a": "b"}}),
    Made("daemonsets.apps", "v1", "DaemonSet", workload()),
    Made("deployments.apps", "v1", "Deployment", workload()),
    Made("replicasets.apps", "v1", "ReplicaSet", workload()),
    Made("statefulsets.apps", "v1", "StatefulSet", workload(serviceName="s")),
    Made("horizontalpodautoscalers.autoscaling", "v1", "HorizontalPodAutoscaler", {"spec": {"maxReplicas": 1, "scaleTargetRef": {"kind": "Deployment", "name": "d"}}}),
    Made("jobs.batch", "v1", "Job", {"spec": {"template": JOB_POD}}),
    Made("cronjobs.batch", "v1beta1", "CronJob", {"spec": {"schedule": "0 0 * * *", "jobTemplate": {"spec": {"template": JOB_POD}}}}),
    Made("leases.coordination.k8s.io", "v1", "Lease", {}),
    Made("endpointslices.discovery.k8s.io", "v1beta1", "EndpointSlice", {"addressType": "IPv4", "endpoints": []}),
    Made("ingresses.networking.k8s.io", "v1", "Ingress", {"spec": {"defaultBackend": {"service": {"name": "s", "port": {"number": 80}}}}}),
    Made("networkpolicies.networking.k8s.io", "v1", "NetworkPolicy", {"spec": {"podSelector": {}}}),
    Made("poddisruptionbudgets.policy", "v1beta1", "PodDisruptionBudget", {"spec": {"minAvailable": 1}}),
    Made("roles.rbac.authorization.k8s.io", "v1", "Role", {"rules": []}),
    Made("rolebindings.rbac.authorization.k8s.io", "v1", "RoleBinding", {"roleRef": {"apiGroup": "rbac.authorization.k8s.io", "kind": "Role", "name": "r"}}),
)
WIDE = (
    Made("namespaces", "v1", "Namespace", {}),
    Made("nodes", "v1", "Node", {}),
    Made("persistentvolumes", "v1", "PersistentVolume", {"spec": {"accessModes": ["ReadWriteOnce"], "capacity": {"storage": "1Gi"}, "hostPath": {"path": "/x"}}}),
    Made("mutatingwebhookconfigurations.admissionregistration.k8s.io", "v1", "MutatingWebhookConfiguration", {"webhooks": [HOOK]}),
    Made("validatingwebhookconfigurations.admissionregistration.k8s.io", "v1", "ValidatingWebhookConfiguration", {"webhooks": [HOOK]}),
    Made("flowschemas.flowcontrol.apiserver.k8s.io", "v1beta1", "FlowSchema", {"spec": {"priorityLevelConfiguration": {"name": "p"}}}),
    Made("prioritylevelconfigurations.flowcontrol.apiserver.k8s.io", "v1beta1", "PriorityLevelConfiguration", {"spec": {"type": "Limited", "limited": {"assuredConcurrencyShares": 1, "limitResponse": {"type": "Reject"}}}}),
    Made("ingressclasses.networking.k8s.io", "v1", "IngressClass", {"spec": {"controller": "a.b/c"}}),
    Made("runtimeclasses.node.k8s.io", "v1", "RuntimeClass", {"handler": "h"}),
    Made("podsecuritypolicies.policy", "v1beta1", "PodSecurityPolicy", {"spec": {"seLinux": {"rule": "RunAsAny"}, "runAsUser": {"rule": "RunAsAny"}, "fsGroup": {"rule": "RunAsAny"}, "supplementalGroups": {"rule": "RunAsAny"}}}),
    Made("clusterroles.rbac.authorization.k8s.io", "v1", "ClusterRole", {"rules": []}),
    Made("clusterrolebindings.rbac.authorization.k8s.io", "v1", "ClusterRoleBinding", {"roleRef": {"apiGroup": "rbac.authorization.k8s.io", "kind": "ClusterRole", "name": "r"}}),
    Made("priorityclasses.scheduling.k8s.io", "v1", "PriorityClass", {"value": 1}),
    Made("csidrivers.storage.k8s.io", "v1", "CSIDriver", {"spec": {}}),
    Made("csinodes.storage.k8s.io", "v1", "CSINode", {"spec": {"drivers": []}}),
    Made("storageclasses.storage.k8s.io", "v1", "StorageClass", {"provisioner": "p"}),
    Made("volumeattachments.storage.k8s.io", "v1", "VolumeAttachment", {"spec": {"attacher": "a", "nodeName": "n", "source": {"persistentVolumeName": "v"}}}),
)
ALL = (*NAMESPACED, *(Made(it.resource, it.version, it.kind, it.body, False) for it in WIDE))
CERTIFICATES = "certificatesigningrequests.certificates.k8s.io"
SERVICES = "apiservices.apiregistration.k8s.io"
DEFINITIONS = "customresourcedefinitions.apiextensions.k8s.io"
GADGETS = "gadgets.example.com"
# The masters' leases: their resource has capital letters in this version, so no entry can name it.
LEASES = "apiserveripinfo"
# Places of the table that this version hasn't, or has switched off.
LATER = set(
    "clustertrustbundles csistoragecapacities deviceclasses devicetaintrules ipaddresses leasecandidates mutatingadmissionpolicies "
    "mutatingadmissionpolicybindings peerserverleases podcertificaterequests podschedulingcontexts resourceclaimparameters "
    "resourceclaims resourceclaimtemplates resourceclasses resourceclassparameters resourceslices servicecidrs "
    "storageversionmigrations storageversions validatingadmissionpolicies validatingadmissionpolicybindings "
    "volumeattributesclasses".split()
)
DEFINITION = {
    "metadata": {"name": GADGETS},
    "spec": {
        "group": "example.com",
        "names": {"plural": "gadgets", "singular": "gadget", "kind": "Gadget"},
        "scope": "Namespaced",
        "versions": [{"name": "v1", "served": True, "storage": True, "schema": {"openAPIV3Schema": {"type": "object", "x-kubernetes-preserve-unknown-fields": True}}}],
    },
}


def key_of(resource: str) -> str:
    """The name of a resource's own key."""
    return resource.replace(".", "-")


def by_keys(file: Path, resources: list[str]) -> Path:
    """A configuration with an entry for each resource, each with a key of its own."""
    entries = []
    for number, resource in enumerate(resources):
        key = {"name": key_of(resource), "secret": base64.b64encode(bytes([number]) * 32).decode()}
        entries.append({"resources": [resource], "providers": [{"aesgcm": {"keys": [key]}}, {"identity": {}}]})
    file.write_text(json.dumps({"apiVersion": "apiserver.config.k8s.io/v1", "kind": "EncryptionConfiguration", "resources": entries}))
    return file


def signing_request(cluster: Cluster) -> dict:
    """A request for a certificate, which openssl made."""
    text = base64.b64encode((cluster.certificates.folder / "client.csr").read_bytes()).decode()
    return {"spec": {"request": text, "signerName": "example.com/signer", "usages": ["client auth"]}}


def make_gadget(server: ApiServer) -> None:
    """A custom resource, and an object of it."""
    server.create("/apis/apiextensions.k8s.io/v1/customresourcedefinitions", DEFINITION)
    gadget = {"apiVersion": "example.com/v1", "kind": "Gadget", "metadata": {"name": "made"}, "spec": {"a": "b"}}
    server.create(f"/apis/example.com/v1/namespaces/{NAMESPACE}/gadgets", gadget)


@dataclass
class Found:
    """What etcd has: the resources that are sealed, those that are plain, and what another resource's key sealed."""

    sealed: set[str] = field(default_factory=set)
    plain: set[str] = field(default_factory=set)
    wrong: list[tuple[str, str, str]] = field(default_factory=list)
    paths: list[str] = field(default_factory=list)

    def add(self, path: str, resource: str, by: str) -> None:
        self.paths.append(path)
        if by == "plain":
            self.plain.add(resource)
        elif by == f"aesgcm:{key_of(resource)}":
            self.sealed.add(resource)
        else:
            self.wrong.append((path, resource, by))


def places(bench: Bench) -> None:
    """An object of each resource: its place in etcd is of the resource whose key sealed it."""
    resources = [it.resource for it in ALL] + [CERTIFICATES, SERVICES, DEFINITIONS, GADGETS]
    config = by_keys(bench.at("keys.json"), resources)
    with bench.cluster(1, config) as cluster:
        server = cluster.servers[0]
        for it in ALL:
            server.create(it.url, it.object())
        server.create("/apis/certificates.k8s.io/v1/certificatesigningrequests", Made(CERTIFICATES, "v1", "CertificateSigningRequest", signing_request(cluster)).object())
        make_gadget(server)
        table, found = Places.below("/registry", {}), Found()
        for path, stored in cluster.stored("/registry/").items():
            found.add(path, table.resource_of(path.encode()), who(stored.value))
        met = {table.place_of(path.encode()).decode() for path in found.paths}
        bench.expect("each place is of the resource that the table says", [], found.wrong)
        bench.expect("each is sealed but for these", set(resources) - {SERVICES, DEFINITIONS, GADGETS}, found.sealed)
        bench.expect("plain are those that this version never seals", {SERVICES, DEFINITIONS, GADGETS, LEASES}, found.plain)
        bench.expect("each place of the table was met, but for those of later versions", LATER, set(table.table) - met)
        done = cluster.etcd.bridge("etcd-to-store", "--store", bench.at("all"), "--config", config)
        bench.expect("the bridges take all of it", 0, done.status)
        bench.figures.append(f"places: {len(found.sealed)} resources sealed and {len(found.plain)} plain ones stand where the table says")


def unsealed(bench: Bench) -> None:
    """What this version of the API server never seals is left by store-to-etcd; sealed all the same it can't be listed."""
    config = configuration(bench.at("on.json"), "aesgcm:key1", "identity", resources=("secrets", SERVICES, GADGETS))
    back = configuration(bench.at("back.json"), "identity", "aesgcm:key1", resources=("secrets", SERVICES, GADGETS))
    with bench.cluster(1, config) as cluster:
        steps, server = Steps(bench, cluster), cluster.servers[0]
        make_gadget(server)
        gadgets, services = f"/apis/example.com/v1/namespaces/{NAMESPACE}/gadgets", "/apis/apiregistration.k8s.io/v1/apiservices"
        store = steps.imported(config)
        kmsrest("rewrite", "--config", config, "--store", store)
        done = steps.write_back(store, config)
        told = {line.split(":")[1].strip() for line in done.errors.splitlines() if "nothing of it in etcd is sealed" in line}
        bench.expect("store-to-etcd leaves them, and says so", (1, {SERVICES, GADGETS}), (done.status, told))
        bench.expect("they are listed as before", [200, 200], [server.list_status(gadgets), server.list_status(services)])
        done = steps.write_back(store, config, "--first", GADGETS, "--first", SERVICES)
        bench.expect("--first seals them", 0, done.status)
        bench.expect("and then they can't be listed", [500, 500], [server.list_status(f"{gadgets}?limit=500"), server.list_status(f"{services}?limit=500")])
        store = steps.imported(back)
        kmsrest("rewrite", "--config", back, "--store", store)
        bench.expect("way back: written plain again", 0, steps.write_back(store, back).status)
        server.reload(config)
        bench.expect("they are listed", [200, 200], [server.list_status(gadgets), server.list_status(services)])


def wildcard(bench: Bench) -> None:
    """An API server before 1.27 seals nothing by `*.*`, so store-to-etcd seals nothing that it wrote."""
    config = configuration(bench.at("all.json"), "aesgcm:key1", "identity", resources=("*.*",))
    with bench.cluster(1, config) as cluster:
        steps, server = Steps(bench, cluster), cluster.servers[0]
        server.make_secret("s", "by identity")
        bench.expect("all that it wrote is plain", {"plain"}, {who(it.value) for it in cluster.stored("/registry/").values()})
        store = steps.imported(config)
        sealed = kmsrest("rewrite", "--config", config, "--store", store).output.split(b"\n")[0]
        bench.expect("a rewrite of the store seals it", True, sealed.startswith(b"rewritten ") and sealed != b"rewritten 0")
        done = steps.write_back(store, config)
        lines = done.output.decode().splitlines()
        left = f"left-plain {sealed.split()[1].decode()}"
        bench.expect("store-to-etcd leaves all of it", (1, True, True), (done.status, "written 0" in lines, left in lines))
        bench.expect("which is read as before", ("by identity", 200), (server.get_secret("s"), server.list_status()))
