"""Names and GUIDs of the standards (UEFI 2.8, appendix N; ACPI 6.4, chapter 18) and of Linux."""

SEVERITIES = ["recoverable", "fatal", "corrected", "informational"]
# The creator of Linux's records.
LINUX = "75a574e3-5052-4b29-8a8e-be2c6490b89d"
# The types of sections.
PROCESSOR = "9876ccad-47b4-4bdb-b65e-16f193c4f3db"
IA32 = "dc3ea0b0-a144-4797-b95b-53fa242b6e1d"
ARM = "e19e3d16-bc11-11e4-9caa-c2051d5d46b0"
MEMORY = "a5bc1114-6f64-4ede-b863-3e83ed7c83b1"
MEMORY_2 = "61ec04fc-48e6-d813-25c9-8daa44750b12"
PCIE = "d995e954-bbc1-430f-ad91-b44dcb3c6f35"
PCI_BUS = "c5753963-3b84-4095-bf78-eddad3f9c9dd"
PCI_COMPONENT = "eb5e4685-ca66-4769-b6a2-26068b001326"
FIRMWARE = "81212a96-09ed-4996-9471-8d729c8e69ed"
DMAR = "5b51fef7-c79d-4434-8f1b-aa62de3e2c64"
VTD = "71761d37-32b2-45cd-a7d0-b0fedd93e8cf"
IOMMU = "036f84e1-7f37-428c-a79e-575fdfaa84ec"
CCIX = "91335ef6-ebfb-4478-a6a6-88b728cf75d7"
MACHINE_CHECK = "fe08ffbe-95e4-4be7-bc73-4096044a38fc"
DMESG = "c197e04e-d545-4a70-9c17-a5549419eb12"
CXL_PROTOCOL = "80b9efb4-52b5-4de3-a777-68784b771048"
CXL_MEDIA = "fbcd0a77-c260-417f-85a9-088b1621eba6"
CXL_DRAM = "601dcbb3-9c06-4eab-b8af-4e9bfb5c9624"
CXL_MODULE = "fe927475-dd59-4339-a586-79bab113b774"
# The types of the checks of an IA32 or x64 processor's section.
CHECKS = [
    "a55701f5-e3ef-43de-ac72-249b573fad2c",
    "fc06b535-5e1f-4562-9f25-0a3b9adb63c3",
    "1cf3f8b3-c5b1-49a2-aa59-5eef92ffa63c",
    "48ab7f57-dc34-4f6c-a7d3-b0b5b0a74314",
]
# The types of notifications.
NOTIFICATIONS = [
    "2dce8bb1-bdd7-450e-b9ad-9cf4ebd4f890",
    "4e292f96-d843-4a55-a8c2-d481f27ebeee",
    "e8f56ffe-919c-4cc5-ba88-65abe14913bb",
    "cf93c01f-1a16-4dfc-b8bc-9c4daf67c104",
    "cc5263e8-9308-454a-89d0-340bd39bc98e",
    "5bad89ff-b7e6-42c9-814a-cf2485d6e98a",
    "3d61a466-ab40-409a-a698-f362d464b38f",
    "667dd791-c6b3-4c27-8a6b-0f8e722deb41",
]
