// Dilation and erosion by OpenCV on grids of bytes, one thread.
#include <opencv2/core/utility.hpp>
#include <opencv2/core/version.hpp>
#include <opencv2/imgproc.hpp>

// The version, after threads are set to one.
extern "C" const char *bench_opencv_start()
{
    cv::setNumThreads(1);
    return CV_VERSION;
}

// The kernel has kw columns and kh rows of 0 and 1, and no more than 16 of each. Its cell
// (i, j) stands for the point (i, j). OpenCV looks from a cell ahead in both calls, so
// dilation is given the kernel turned about, with its last cell as the anchor. All cells
// outside the grid have the value that is given.
extern "C" void bench_opencv(const unsigned char *from, unsigned char *to, int w, int h, const unsigned char *kernel, int kw, int kh, int erode, int outside)
{
    const cv::Scalar border(outside);
    cv::Mat source(h, w, CV_8U, const_cast<unsigned char *>(from));
    cv::Mat target(h, w, CV_8U, to);
    if (erode) {
        cv::Mat cells(kh, kw, CV_8U, const_cast<unsigned char *>(kernel));
        cv::erode(source, target, cells, cv::Point(0, 0), 1, cv::BORDER_CONSTANT, border);
    } else {
        unsigned char turned[256];
        for (int k = 0; k < kw * kh; k++)
            turned[k] = kernel[kw * kh - 1 - k];
        cv::Mat cells(kh, kw, CV_8U, turned);
        cv::dilate(source, target, cells, cv::Point(kw - 1, kh - 1), 1, cv::BORDER_CONSTANT, border);
    }
}
